// The same network: the bits of the signal select, and each case is a row.
Module Net {
  ScanInPort SI; ScanOutPort SO { Source M; }
  ScanInterface client { Port SI; Port SO; }
  ScanRegister S[1:0] { ScanInSource SI; CaptureSource S; ResetValue 2'b00; }
  ScanRegister R[3:0] { ScanInSource S; ResetValue 4'b0; }
  ScanMux M SelectedBy S { 2'b10 : R; 2'b00 | 2'bx1 : S; }
}
Module chip {
  Instance net Of Net;
  AccessLink tap Of STD_1149_1_2001 { BSDLEntity chip; IJTAG { ScanInterface { net.client; } } }
}

// As a tool writes it: 0 opens the segment.
Module Net {
  ScanInPort SI; ScanOutPort SO { Source M; }
  ScanInterface client { Port SI; Port SO; }
  ScanRegister S { ScanInSource SI; CaptureSource S; ResetValue 1'b1; }
  ScanRegister R[3:0] { ScanInSource S; ResetValue 4'b0; }
  ScanMux M SelectedBy ~S { 1'b0 : S; 1'b1 : R; }
}
Module chip {
  Instance net Of Net;
  AccessLink tap Of STD_1149_1_2001 { BSDLEntity chip; IJTAG { ScanInterface { net.client; } } }
}

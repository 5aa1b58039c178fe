// As a tool writes it: the select is decoded.
Module Net {
  ScanInPort SI; ScanOutPort SO { Source M; }
  ScanInterface client { Port SI; Port SO; }
  ScanRegister S[1:0] { ScanInSource SI; CaptureSource S; ResetValue 2'b00; }
  ScanRegister R[3:0] { ScanInSource S; ResetValue 4'b0; }
  LogicSignal open { S[1] & ~S[0]; }
  ScanMux M SelectedBy open { 1'b0 : S; 1'b1 : R; }
}
Module chip {
  Instance net Of Net;
  AccessLink tap Of STD_1149_1_2001 { BSDLEntity chip; IJTAG { ScanInterface { net.client; } } }
}

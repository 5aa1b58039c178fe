// One segment: S takes R into the scan path.
Module Net {
  ScanInPort SI; ScanOutPort SO { Source S; }
  ScanInterface client { Port SI; Port SO; }
  ScanRegister R[3:0] { ScanInSource SI; ResetValue 4'b0; }
  ScanMux m SelectedBy S { 1'b0 : SI; 1'b1 : R; }
  ScanRegister S { ScanInSource m; ResetValue 1'b0; }
}
Module chip {
  Instance net Of Net;
  AccessLink tap Of STD_1149_1_2001 { BSDLEntity chip; IJTAG { ScanInterface { net.client; } } }
}

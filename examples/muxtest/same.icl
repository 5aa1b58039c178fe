// Two rows of the same number of bits.
Module Net {
  ScanInPort SI; ScanOutPort SO { Source S; }
  ScanInterface client { Port SI; Port SO; }
  ScanRegister A[1:0] { ScanInSource SI; ResetValue 2'b0; }
  ScanRegister B[1:0] { ScanInSource SI; ResetValue 2'b0; }
  ScanMux m SelectedBy S { 1'b0 : A; 1'b1 : B; }
  ScanRegister S { ScanInSource m; ResetValue 1'b0; }
}
Module chip {
  Instance net Of Net;
  AccessLink tap Of STD_1149_1_2001 { BSDLEntity chip; IJTAG { ScanInterface { net.client; } } }
}

Module Sib {
  Attribute kind = "segment insertion bit";
  ScanInPort SI; CaptureEnPort CE; ShiftEnPort SE; UpdateEnPort UE; SelectPort SEL;
  ResetPort RST { ActivePolarity 0; } TCKPort TCK;
  ScanOutPort SO { Source SR; }
  ScanInterface client { Port SI; Port CE; Port SE; Port UE; Port SEL; Port RST; Port TCK; Port SO; }
  ScanInPort fromSO; ToCaptureEnPort toCE; ToShiftEnPort toSE; ToUpdateEnPort toUE;
  ToSelectPort toSEL { Source SR; } ToResetPort toRST; ToTCKPort toTCK;
  ScanOutPort toSI { Source SI; }
  ScanInterface host { Port fromSO; Port toCE; Port toSE; Port toUE; Port toSEL; Port toRST; Port toTCK; Port toSI; }
  ScanRegister SR { ScanInSource m; CaptureSource SR; ResetValue 1'b0; }
  ScanMux m SelectedBy SR { 1'b0 : SI; 1'b1 : fromSO; }
}
Module Ins { TCKPort TCK; DataInPort d[7:0]; DataOutPort q[7:0]; }
Module Wrap {
  ScanInPort SI; SelectPort SEL; TCKPort TCK; ScanOutPort SO { Source R[0]; }
  ScanInterface client { Port SI; Port SEL; Port TCK; Port SO; }
  ScanRegister R[7:0] { ScanInSource SI; CaptureSource ins.q; DefaultLoadValue 8'b0; ResetValue 8'b0; }
  Instance ins Of Ins { InputPort d = R; InputPort TCK = TCK; }
}
Module Net {
  ScanInPort SI; ScanOutPort SO { Source s12.SO; }
  ScanInterface client { Port SI; Port SO; }
  Instance s1 Of Sib { InputPort SI = SI; InputPort fromSO = w1.SO; }
  Instance s2 Of Sib { InputPort SI = s1.SO; InputPort fromSO = w2.SO; }
  Instance s3 Of Sib { InputPort SI = s2.SO; InputPort fromSO = w3.SO; }
  Instance s4 Of Sib { InputPort SI = s3.SO; InputPort fromSO = w4.SO; }
  Instance s5 Of Sib { InputPort SI = s4.SO; InputPort fromSO = w5.SO; }
  Instance s6 Of Sib { InputPort SI = s5.SO; InputPort fromSO = w6.SO; }
  Instance s7 Of Sib { InputPort SI = s6.SO; InputPort fromSO = w7.SO; }
  Instance s8 Of Sib { InputPort SI = s7.SO; InputPort fromSO = w8.SO; }
  Instance s9 Of Sib { InputPort SI = s8.SO; InputPort fromSO = w9.SO; }
  Instance s10 Of Sib { InputPort SI = s9.SO; InputPort fromSO = w10.SO; }
  Instance s11 Of Sib { InputPort SI = s10.SO; InputPort fromSO = w11.SO; }
  Instance s12 Of Sib { InputPort SI = s11.SO; InputPort fromSO = w12.SO; }
  Instance w1 Of Wrap { InputPort SI = s1.toSI; InputPort SEL = s1.toSEL; }
  Instance w2 Of Wrap { InputPort SI = s2.toSI; InputPort SEL = s2.toSEL; }
  Instance w3 Of Wrap { InputPort SI = s3.toSI; InputPort SEL = s3.toSEL; }
  Instance w4 Of Wrap { InputPort SI = s4.toSI; InputPort SEL = s4.toSEL; }
  Instance w5 Of Wrap { InputPort SI = s5.toSI; InputPort SEL = s5.toSEL; }
  Instance w6 Of Wrap { InputPort SI = s6.toSI; InputPort SEL = s6.toSEL; }
  Instance w7 Of Wrap { InputPort SI = s7.toSI; InputPort SEL = s7.toSEL; }
  Instance w8 Of Wrap { InputPort SI = s8.toSI; InputPort SEL = s8.toSEL; }
  Instance w9 Of Wrap { InputPort SI = s9.toSI; InputPort SEL = s9.toSEL; }
  Instance w10 Of Wrap { InputPort SI = s10.toSI; InputPort SEL = s10.toSEL; }
  Instance w11 Of Wrap { InputPort SI = s11.toSI; InputPort SEL = s11.toSEL; }
  Instance w12 Of Wrap { InputPort SI = s12.toSI; InputPort SEL = s12.toSEL; }
}
Module chip {
  Instance net Of Net;
  AccessLink tap Of STD_1149_1_2001 {
    BSDLEntity chip; IJTAG { ScanInterface { net.client; } }
  }
}

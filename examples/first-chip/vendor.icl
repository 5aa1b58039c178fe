// As it comes from the vendor of a temperature sensor: a network without an access link.
Module TempSensor { DataInPort en; DataInPort sel[2:0]; DataOutPort temp[11:0]; DataOutPort valid; }

Module Sib {
  ScanInPort SI; SelectPort SEL; ScanOutPort SO { Source SR; }
  ScanInterface client { Port SI; Port SEL; Port SO; }
  ScanInPort fromSO; ToSelectPort toSEL { Source SR; } ScanOutPort toSI { Source SI; }
  ScanInterface host { Port fromSO; Port toSEL; Port toSI; }
  ScanRegister SR { ScanInSource m; CaptureSource SR; ResetValue 1'b0; }
  ScanMux m SelectedBy SR { 1'b0 : SI; 1'b1 : fromSO; }
}

Module TempNet {
  ScanInPort SI; ScanOutPort SO { Source sib.SO; }
  ScanInterface client { Port SI; Port SO; }
  Instance sib Of Sib { InputPort SI = SI; InputPort fromSO = R; }
  ScanRegister R[16:0] { ScanInSource sib.toSI; CaptureSource 4'b0, ts.valid, ts.temp; ResetValue 17'b0; }
  Instance ts Of TempSensor { InputPort en = R[16]; InputPort sel = R[15:13]; }
}

Module SelfTest { DataInPort start; DataOutPort done; }
Module Cell {
  ScanInPort SI; ScanOutPort SO { Source R[0]; }
  ScanInterface client { Port SI; Port SO; }
  DataInPort d; DataOutPort s { Source R[0]; }
  ScanRegister R[1:0] { ScanInSource SI; CaptureSource d, R[0]; ResetValue 2'b00; }
}
Module Net {
  ScanInPort SI; ScanOutPort SO { Source cb.SO; }
  ScanInterface client { Port SI; Port SO; }
  DataInPort da; DataOutPort sa { Source ca.s; }
  DataInPort db; DataOutPort sb { Source cb.s; }
  Instance ca Of Cell { InputPort SI = SI; InputPort d = da; }
  Instance cb Of Cell { InputPort SI = ca.SO; InputPort d = db; }
}
Module chip {
  Instance net Of Net { InputPort da = fast.done; InputPort db = slow.done; }
  Instance fast Of SelfTest { InputPort start = net.sa; }
  Instance slow Of SelfTest { InputPort start = net.sb; }
  AccessLink tap Of STD_1149_1_2001 {
    BSDLEntity chip; IJTAG { ScanInterface { net.client; } }
  }
}

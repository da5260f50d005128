FIRRTL version 4.0.0
circuit Counter :
  public module Counter :
    input clock : Clock
    input reset : UInt<1>
    output out : UInt<8>
    regreset c : UInt<8>, clock, UInt<1>(0h0), c
    node n = add(c, UInt<1>(0b1))
    connect out, c
    connect c, mux(reset, UInt<8>(0h0), bits(n, 7, 0))

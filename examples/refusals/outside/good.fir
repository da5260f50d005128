circuit Top :
  module Top :
    input clock : Clock
    input a : UInt<8>
    output y : UInt<8>

    y <= mux(orr(a), a, UInt<8>(1))

circuit Top :
  module Top :
    input clock : Clock
    input a : UInt<8>
    output y : UInt<8>

    wire w : UInt<128>
    w <= a
    y <= bits(w, 7, 0)

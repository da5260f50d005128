circuit Top :
  module Top :
    input clock : Clock
    input a : UInt<8>
    output y : UInt<8>

    wire x : UInt<3>
    x <= cat(bits(x, 1, 0), bits(a, 0, 0))
    y <= x

circuit Top :
  module Top :
    input clock : Clock
    input a : UInt<8>
    output y : UInt<8>

    node x0 = bits(a, 0, 0)
    node x1 = x0
    node x2 = x1
    y <= cat(cat(x2, x1), x0)

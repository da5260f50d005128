circuit Top :
  module Top :
    input clock : Clock
    input a : UInt<8>
    output y : UInt<8>

    node b = not(a)
    y <= b

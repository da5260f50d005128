circuit Top :
  module Top :
    input clock : Clock
    input a : UInt<8>
    output y : UInt<8>

    when orr(a) :
      y <= a
    else :
      y <= UInt<8>(1)

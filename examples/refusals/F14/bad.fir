circuit Top :
  module Top :
    input clock : Clock
    input a : UInt<8>
    output y : UInt<8>
    output c : Clock

    c <= clock
    y <= a

circuit Top :
  module Tap :
    input clock : Clock
    input a : UInt<8>
    output y : UInt<8>

    y <= a

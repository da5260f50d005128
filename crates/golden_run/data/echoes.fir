circuit Echoes :
  module Echoes :
    input clock : Clock
    input reset : UInt<1>
    input from1 : UInt<1>
    input from8 : UInt<8>
    input from32 : UInt<32>
    input from64 : UInt<64>
    output out : UInt<8>
    output q1 : UInt<1>
    output q8 : UInt<8>
    output q32 : UInt<32>
    output q64 : UInt<64>
    output to1 : UInt<1>
    output to8 : UInt<8>
    output to32 : UInt<32>
    output to64 : UInt<64>

    reg c : UInt<8>, clock with :
      reset => (UInt<1>("h0"), c) @[Counter.scala 5:20]
    node n = add(c, UInt<1>("h1"))
    out <= c
    c <= mux(reset, UInt<8>("h0"), bits(n, 7, 0))
    q1 <= from1
    q8 <= from8
    q32 <= from32
    q64 <= from64
    to1 <= not(bits(c, 0, 0))
    to8 <= not(c)
    to32 <= cat(cat(not(c), c), UInt<16>("habcd"))
    to64 <= cat(cat(not(c), c), cat(UInt<32>("h01234567"), UInt<16>("h89ab")))

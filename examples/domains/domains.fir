circuit Domains :
  module Side :
    input clock : Clock
    input gives : UInt<1>
    input other : UInt<1>
    input given : UInt<4>
    output flag : UInt<1>
    output data : UInt<4>

    reg f : UInt<1>, clock
    reg d : UInt<4>, clock
    node next = xor(other, gives)
    flag <= f
    data <= d
    f <= next
    d <= mux(neq(next, f), given, d)

  module Domains :
    input fast : Clock
    input slow : Clock
    input x : UInt<4>
    output p : UInt<4>
    output q : UInt<4>
    output valid : UInt<1>

    inst left of Side
    inst right of Side
    left.clock <= fast
    left.gives <= UInt<1>(1)
    left.other <= right.flag
    left.given <= x
    right.clock <= slow
    right.gives <= UInt<1>(0)
    right.other <= left.flag
    right.given <= left.data
    p <= left.data
    q <= right.data
    valid <= xor(left.flag, right.flag)

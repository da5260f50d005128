circuit Pair :
  module Store :
    input clock : Clock
    input a : UInt<8>
    output y : UInt<8>

    mem m :
      data-type => UInt<8>
      depth => 4
      read-latency => 0
      write-latency => 1
      reader => r
      writer => w
      read-under-write => undefined
    m.r.clk <= clock
    m.r.addr <= bits(a, 1, 0)
    m.r.en <= UInt<1>("h1")
    m.w.clk <= clock
    m.w.addr <= bits(a, 1, 0)
    m.w.en <= UInt<1>("h1")
    m.w.mask <= UInt<1>("h1")
    m.w.data <= a
    y <= m.r.data

  module Other :
    input clock : Clock
    input a : UInt<8>
    output y : UInt<8>

    y <= not(a)

  module Pair :
    input clock : Clock
    input a : UInt<8>
    output y : UInt<8>

    inst one of Store
    inst two of Store
    inst other of Other
    one.clock <= clock
    one.a <= a
    two.clock <= clock
    two.a <= one.y
    other.clock <= clock
    other.a <= two.y
    y <= other.y

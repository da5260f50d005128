circuit Cores :
  module Core :
    input clock : Clock
    input step : UInt<8>
    input word : UInt<16>
    output at : UInt<4>
    output sum : UInt<16>

    reg pc : UInt<4>, clock
    reg total : UInt<16>, clock
    at <= pc
    sum <= total
    pc <= bits(add(pc, bits(step, 3, 0)), 3, 0)
    total <= bits(add(total, word), 15, 0)

  module Cores :
    input clock : Clock
    input one : UInt<8>
    input two : UInt<8>
    output left : UInt<16>
    output right : UInt<16>

    inst a of Core
    inst b of Core
    mem words :
      data-type => UInt<16>
      depth => 16
      read-latency => 0
      write-latency => 1
      reader => r
      reader => s
      writer => w
      read-under-write => undefined
    a.clock <= clock
    a.step <= one
    a.word <= words.r.data
    b.clock <= clock
    b.step <= two
    b.word <= words.s.data
    words.r.clk <= clock
    words.r.en <= UInt<1>("h1")
    words.r.addr <= a.at
    words.s.clk <= clock
    words.s.en <= UInt<1>("h1")
    words.s.addr <= b.at
    words.w.clk <= clock
    words.w.en <= UInt<1>("h1")
    words.w.mask <= UInt<1>("h1")
    words.w.addr <= a.at
    words.w.data <= xor(b.sum, pad(one, 16))
    left <= a.sum
    right <= b.sum

circuit Delay :
  module Store :
    input clock : Clock
    input at : UInt<2>
    input value : UInt<8>
    output old : UInt<8>

    mem m :
      data-type => UInt<8>
      depth => 4
      read-latency => 0
      write-latency => 1
      reader => r
      writer => w
      read-under-write => undefined
    m.r.clk <= clock
    m.r.addr <= at
    m.r.en <= UInt<1>("h1")
    m.w.clk <= clock
    m.w.addr <= at
    m.w.en <= UInt<1>("h1")
    m.w.mask <= UInt<1>("h1")
    m.w.data <= value
    old <= m.r.data

  module Delay :
    input clock : Clock
    input x : UInt<8>
    output y : UInt<8>

    reg at : UInt<2>, clock
    inst store of Store
    store.clock <= clock
    store.at <= at
    store.value <= x
    at <= bits(add(at, UInt<1>("h1")), 1, 0)

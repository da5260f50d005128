circuit Stream :
  module Source :
    input clock : Clock
    input full : UInt<1>
    output put : UInt<1>
    output value : UInt<8>

    reg n : UInt<8>, clock
    node next = tail(add(n, UInt<8>(1)), 1)
    put <= UInt<1>(1)
    value <= next
    n <= mux(full, n, next)

  module Sink :
    input clock : Clock
    input valid : UInt<1>
    input value : UInt<8>
    input wait : UInt<1>
    output stop : UInt<1>
    output taken : UInt<8>
    output sum : UInt<8>

    reg s : UInt<8>, clock
    node takes = and(valid, not(wait))
    stop <= wait
    taken <= mux(takes, value, UInt<8>(0))
    sum <= s
    s <= tail(add(s, taken), 1)

  module Sender :
    input clock : Clock
    output line : UInt<1>

    reg at : UInt<5>, clock
    node last = eq(at, UInt<5>(31))
    line <= bits(dshr(UInt<32>("he14b4a90"), at), 0, 0)
    at <= mux(last, at, tail(add(at, UInt<5>(1)), 1))

  module Stream :
    input clock : Clock
    input wait : UInt<1>
    output taken : UInt<8>
    output sum : UInt<8>
    output put : UInt<1>
    output value : UInt<8>
    output stop : UInt<1>
    input valid : UInt<1>
    input first : UInt<8>
    input full : UInt<1>
    output tx : UInt<1>

    inst sender of Sender
    sender.clock <= clock
    tx <= sender.line
    inst source of Source
    inst sink of Sink
    source.clock <= clock
    source.full <= full
    put <= source.put
    value <= source.value
    sink.clock <= clock
    sink.valid <= valid
    sink.value <= first
    sink.wait <= wait
    stop <= sink.stop
    taken <= sink.taken
    sum <= sink.sum

circuit Ping :
  module Sender :
    input clock : Clock
    input back : UInt<8>
    output send : UInt<8>

    reg n : UInt<8>, clock
    send <= n
    n <= mux(eq(back, n), tail(add(n, UInt<8>(1)), 1), n)

  module Ping :
    input clock : Clock
    input back : UInt<8>
    output send : UInt<8>
    output count : UInt<8>

    inst sender of Sender
    sender.clock <= clock
    sender.back <= back
    send <= sender.send
    count <= sender.send

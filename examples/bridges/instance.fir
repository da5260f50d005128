circuit Ping :
  module Sender :
    input clock : Clock
    input back : UInt<8>
    output send : UInt<8>

    reg n : UInt<8>, clock
    send <= n
    n <= mux(eq(back, n), tail(add(n, UInt<8>(1)), 1), n)

  module Echo :
    input clock : Clock
    input seen : UInt<8>
    output said : UInt<8>

    reg last : UInt<8>, clock
    said <= last
    last <= seen

  module Ping :
    input clock : Clock
    output count : UInt<8>

    inst sender of Sender
    inst echo of Echo
    sender.clock <= clock
    echo.clock <= clock
    echo.seen <= sender.send
    sender.back <= echo.said
    count <= sender.send

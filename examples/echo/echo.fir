circuit echo :
  module receive :
    input clk : Clock
    input rst : UInt<1>
    input rx : UInt<1>
    output valid : UInt<1>
    output data : UInt<8>
    reg valid_value : UInt<1>, clk @[examples/echo/echo.v 6:5]
    reg data_value : UInt<8>, clk @[examples/echo/echo.v 6:5]
    reg tick : UInt<2>, clk @[examples/echo/echo.v 6:5]
    reg count : UInt<4>, clk @[examples/echo/echo.v 6:5]
    node add = bits(add(tick, UInt<2>("h1")), 1, 0) @[examples/echo/echo.v 14:21]
    node logic_not = not(orr(count)) @[examples/echo/echo.v 10:22]
    node logic_not_1 = not(orr(tick)) @[examples/echo/echo.v 15:17]
    node eq = eq(count, UInt<4>("h1")) @[examples/echo/echo.v 18:21]
    node gt = gt(count, UInt<4>("h1")) @[examples/echo/echo.v 17:21]
    node lt = lt(count, UInt<4>("ha")) @[examples/echo/echo.v 17:34]
    node logic_and = and(gt, lt) @[examples/echo/echo.v 17:21]
    node mux = mux(eq, rx, UInt<1>("h0")) @[examples/echo/echo.v 18:21]
    node mux_1 = mux(logic_not_1, mux, UInt<1>("h0")) @[examples/echo/echo.v 15:17]
    node mux_2 = mux(logic_not, UInt<1>("h0"), mux_1) @[examples/echo/echo.v 10:22]
    node mux_3 = mux(rst, UInt<1>("h0"), mux_2) @[examples/echo/echo.v 8:13]
    node sub = bits(sub(count, UInt<4>("h1")), 3, 0) @[examples/echo/echo.v 16:26]
    node mux_4 = mux(logic_not_1, sub, count) @[examples/echo/echo.v 15:17]
    node mux_5 = mux(rx, count, UInt<4>("ha")) @[examples/echo/echo.v 12:17]
    node mux_6 = mux(logic_not, mux_5, mux_4) @[examples/echo/echo.v 10:22]
    node mux_7 = mux(rst, UInt<4>("h0"), mux_6) @[examples/echo/echo.v 8:13]
    node mux_8 = mux(logic_not, UInt<2>("h0"), add) @[examples/echo/echo.v 10:22]
    node mux_9 = mux(rst, tick, mux_8) @[examples/echo/echo.v 8:13]
    node mux_10 = mux(logic_and, cat(rx, bits(data_value, 7, 1)), data_value) @[examples/echo/echo.v 17:21]
    node mux_11 = mux(logic_not_1, mux_10, data_value) @[examples/echo/echo.v 15:17]
    node mux_12 = mux(logic_not, data_value, mux_11) @[examples/echo/echo.v 10:22]
    node mux_13 = mux(rst, data_value, mux_12) @[examples/echo/echo.v 8:13]
    valid_value <= mux_3
    data_value <= mux_13
    tick <= mux_9
    count <= mux_7
    valid <= valid_value
    data <= data_value

  module send :
    input clk : Clock
    input rst : UInt<1>
    input start : UInt<1>
    input data : UInt<8>
    output tx : UInt<1>
    output ready : UInt<1>
    reg tick_kept : UInt<2>, clk @[examples/echo/echo.v 30:5]
    reg count_kept : UInt<4>, clk @[examples/echo/echo.v 30:5]
    reg bits_kept_inverted : UInt<10>, clk @[examples/echo/echo.v 30:5]
    node bits_kept = xor(bits_kept_inverted, UInt<10>("h3ff")) @[examples/echo/echo.v 30:5]
    node tick = mux(rst, UInt<2>("h0"), tick_kept)
    node add = bits(add(tick, UInt<2>("h1")), 1, 0) @[examples/echo/echo.v 42:21]
    node count = mux(rst, UInt<4>("h0"), count_kept)
    node bits = mux(rst, UInt<10>("h3ff"), bits_kept)
    node ready_value = not(orr(count)) @[examples/echo/echo.v 29:20]
    node mux = mux(ready_value, UInt<2>("h0"), add) @[examples/echo/echo.v 35:22]
    node mux_1 = mux(rst, UInt<2>("h0"), mux)
    node sub = bits(sub(count, UInt<4>("h1")), 3, 0) @[examples/echo/echo.v 45:26]
    node eq = eq(tick, UInt<2>("h3")) @[examples/echo/echo.v 43:17]
    node mux_2 = mux(eq, sub, count) @[examples/echo/echo.v 43:17]
    node mux_3 = mux(start, UInt<4>("ha"), count) @[examples/echo/echo.v 37:17]
    node mux_4 = mux(ready_value, mux_3, mux_2) @[examples/echo/echo.v 35:22]
    node mux_5 = mux(rst, UInt<4>("h0"), mux_4)
    node mux_6 = mux(eq, cat(UInt<1>("h1"), bits(bits, 9, 1)), bits) @[examples/echo/echo.v 43:17]
    node mux_7 = mux(start, cat(cat(UInt<1>("h1"), data), UInt<1>("h0")), bits) @[examples/echo/echo.v 37:17]
    node mux_8 = mux(ready_value, mux_7, mux_6) @[examples/echo/echo.v 35:22]
    node mux_9 = mux(rst, UInt<10>("h3ff"), mux_8)
    tick_kept <= mux_1
    count_kept <= mux_5
    bits_kept_inverted <= xor(mux_9, UInt<10>("h3ff"))
    tx <= bits(bits, 0, 0)
    ready <= ready_value

  module echo :
    input clk : Clock
    input rst : UInt<1>
    input rx : UInt<1>
    output tx : UInt<1>
    output seen : UInt<8>
    mem queue : @[examples/echo/echo.v 52:15]
      data-type => UInt<8>
      depth => 16
      read-latency => 0
      write-latency => 1
      reader => r0
      writer => w0
      read-under-write => undefined
    inst r of receive @[examples/echo/echo.v 58:13]
    inst s of send @[examples/echo/echo.v 59:10]
    reg first : UInt<4>, clk @[examples/echo/echo.v 61:5]
    reg last : UInt<4>, clk @[examples/echo/echo.v 61:5]
    reg total : UInt<8>, clk @[examples/echo/echo.v 61:5]
    node add = bits(add(last, UInt<4>("h1")), 3, 0) @[examples/echo/echo.v 69:25]
    node add_1 = bits(add(total, UInt<8>("h1")), 7, 0) @[examples/echo/echo.v 70:26]
    node add_2 = bits(add(first, UInt<4>("h1")), 3, 0) @[examples/echo/echo.v 72:32]
    node ne = neq(first, last) @[examples/echo/echo.v 57:26]
    node take = and(s.ready, ne) @[examples/echo/echo.v 57:17]
    node mux = mux(r.valid, UInt<1>("h1"), UInt<1>("h0")) @[examples/echo/echo.v 67:17]
    node mux_1 = mux(r.valid, r.data, UInt<8>("h0")) @[examples/echo/echo.v 67:17]
    node mux_2 = mux(r.valid, last, UInt<4>("h0")) @[examples/echo/echo.v 67:17]
    node mux_3 = mux(rst, UInt<1>("h0"), mux) @[examples/echo/echo.v 62:13]
    node mux_4 = mux(rst, UInt<8>("h0"), mux_1) @[examples/echo/echo.v 62:13]
    node mux_5 = mux(rst, UInt<4>("h0"), mux_2) @[examples/echo/echo.v 62:13]
    node mux_6 = mux(r.valid, add_1, total) @[examples/echo/echo.v 67:17]
    node mux_7 = mux(rst, UInt<8>("h0"), mux_6) @[examples/echo/echo.v 62:13]
    node mux_8 = mux(r.valid, add, last) @[examples/echo/echo.v 67:17]
    node mux_9 = mux(rst, UInt<4>("h0"), mux_8) @[examples/echo/echo.v 62:13]
    node mux_10 = mux(take, add_2, first) @[examples/echo/echo.v 72:17]
    node mux_11 = mux(rst, UInt<4>("h0"), mux_10) @[examples/echo/echo.v 62:13]
    queue.r0.addr <= first
    queue.r0.en <= UInt<1>("h1")
    queue.r0.clk <= clk
    first <= mux_11
    last <= mux_9
    total <= mux_7
    queue.w0.addr <= mux_5
    queue.w0.en <= UInt<1>("h1")
    queue.w0.clk <= clk
    queue.w0.mask <= mux_3
    queue.w0.data <= mux_4
    r.clk <= clk
    r.rst <= rst
    r.rx <= rx
    s.clk <= clk
    s.rst <= rst
    s.start <= take
    s.data <= queue.r0.data
    tx <= s.tx
    seen <= total

circuit Words :
  module Words :
    input clock : Clock
    input io_en : UInt<1>
    input io_at : UInt<2>
    input io_in : UInt<8>
    output io_out : UInt<8>

    mem words :
      data-type => UInt<8>
      depth => 4
      read-latency => 0
      write-latency => 1
      reader => r
      writer => w
      read-under-write => undefined
    node _GEN_0 = validif(io_en, io_at)
    node _GEN_1 = validif(io_en, clock)
    node _GEN_2 = mux(io_en, UInt<1>("h1"), UInt<1>("h0"))
    node _GEN_3 = validif(io_en, io_in)
    words.r.clk <= clock
    words.r.addr <= io_at
    words.r.en <= UInt<1>("h1")
    words.w.clk <= _GEN_1
    words.w.addr <= _GEN_0
    words.w.en <= _GEN_2
    words.w.mask <= _GEN_2
    words.w.data <= _GEN_3
    io_out <= words.r.data

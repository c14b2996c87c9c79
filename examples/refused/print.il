# As newer versions of Yosys write `always @(posedge clk) $display("%d", a);`. By hand.
module \shown
  wire width 4 input 2 \a
  wire input 1 \clk
  wire width 4 output 3 \y
  cell $print $display$print.v:3$1
    parameter \ARGS_WIDTH 4
    parameter \FORMAT "{4:> du}\n"
    parameter \PRIORITY -1
    parameter \TRG_ENABLE 1
    parameter \TRG_POLARITY 1'1
    parameter \TRG_WIDTH 1
    connect \ARGS \a
    connect \EN 1'1
    connect \TRG \clk
  end
  connect \y \a
end

# As newer versions of Yosys write an assertion where -formal is not given. By hand.
module \checked
  wire width 4 input 2 \a
  wire input 1 \clk
  wire width 4 output 3 \y
  wire $lt
  cell $lt $1
    parameter \A_SIGNED 0
    parameter \A_WIDTH 4
    parameter \B_SIGNED 0
    parameter \B_WIDTH 4
    parameter \Y_WIDTH 1
    connect \A \a
    connect \B 4'1010
    connect \Y $lt
  end
  cell $check $assert$check.v:4$2
    parameter \ARGS_WIDTH 0
    parameter \FLAVOR "assert"
    parameter \FORMAT ""
    parameter \PRIORITY -1
    parameter \TRG_ENABLE 1
    parameter \TRG_POLARITY 1'1
    parameter \TRG_WIDTH 1
    connect \A $lt
    connect \ARGS { }
    connect \EN 1'1
    connect \TRG \clk
  end
  connect \y \a
end

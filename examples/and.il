module \m
  wire width 2 input 1 \a
  wire width 2 input 2 \b
  wire width 2 output 3 \y
  cell $and $1
    parameter \A_SIGNED 0
    parameter \A_WIDTH 2
    parameter \B_SIGNED 0
    parameter \B_WIDTH 2
    parameter \Y_WIDTH 2
    connect \A \a
    connect \B \b
    connect \Y \y
  end
end

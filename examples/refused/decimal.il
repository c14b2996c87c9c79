module \five
  wire width 32 output 1 \y
  connect \y 32'sd5
end

# As `flatten` of newer versions of Yosys leaves it. By hand.
module \flat
  wire input 1 \a
  wire output 2 \y
  attribute \cell_module_not_derived 1
  cell $scopeinfo \u
    parameter \TYPE "module"
  end
  connect \y \a
end

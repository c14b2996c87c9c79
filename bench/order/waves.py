"""Seven waveforms of resets, in Verilog, each with a stimulus."""
from random import Random
from typing import List, NamedTuple, Sequence

SYNCHRONISER = '''
module wave(input clk, input rst_n, output ready, output reg [3:0] count);
  reg [1:0] stage;
  assign ready = stage[1];
  always @(posedge clk or negedge rst_n)
    if (!rst_n) stage <= 2'b00;
    else stage <= {stage[0], 1'b1};
  always @(posedge clk or negedge ready)
    if (!ready) count <= 4'd0;
    else count <= count + 4'd1;
endmodule
'''
SOFT = '''
module wave(input clk, input rst, input write, input value, output reg soft, output reg [3:0] count);
  always @(posedge clk or posedge rst)
    if (rst) soft <= 1'b1;
    else if (write) soft <= value;
  always @(posedge clk or posedge soft)
    if (soft) count <= 4'd0;
    else count <= count + 4'd1;
endmodule
'''
OFF_EDGE = '''
module wave(input clk, input rst_n, output reg ready, output reg [3:0] count);
  always @(negedge clk or negedge rst_n)
    if (!rst_n) ready <= 1'b0;
    else ready <= 1'b1;
  always @(posedge clk or negedge ready)
    if (!ready) count <= 4'd0;
    else count <= count + 4'd1;
endmodule
'''
SET_AND_RESET = '''
module wave(input clk, input rst, input s, input c, input [1:0] d, output reg set, output reg clr, output reg [1:0] q);
  always @(posedge clk or posedge rst)
    if (rst) begin
      set <= 1'b0;
      clr <= 1'b1;
    end else begin
      set <= s & !c;
      clr <= c;
    end
  always @(posedge clk or posedge clr or posedge set)
    if (clr) q <= 2'b00;
    else if (set) q <= 2'b11;
    else q <= q + d;
endmodule
'''
ENABLE = '''
module wave(input clk, input rst_n, input en, output reg ready, output reg [3:0] count);
  always @(posedge clk or negedge rst_n)
    if (!rst_n) ready <= 1'b0;
    else if (en) ready <= 1'b1;
  always @(posedge clk or negedge ready)
    if (!ready) count <= 4'd0;
    else if (en) count <= count + 4'd1;
endmodule
'''
FROM_START = '''
module wave(input clk, input [3:0] d, output reg reset, output reg [3:0] q);
  initial reset = 1'b1;
  always @(posedge clk) reset <= 1'b0;
  always @(posedge clk or posedge reset)
    if (reset) q <= 4'd5;
    else q <= q + d;
endmodule
'''
TWO_CLOCKS = '''
module wave(input clk_a, input clk_b, input rst_n, output reg [3:0] a, output reg [3:0] b);
  reg [1:0] stage_a, stage_b;
  wire ready_a = stage_a[1];
  wire ready_b = stage_b[1];
  always @(posedge clk_a or negedge rst_n)
    if (!rst_n) stage_a <= 2'b00;
    else stage_a <= {stage_a[0], 1'b1};
  always @(posedge clk_b or negedge rst_n)
    if (!rst_n) stage_b <= 2'b00;
    else stage_b <= {stage_b[0], 1'b1};
  always @(posedge clk_a or negedge ready_a)
    if (!ready_a) a <= 4'd0;
    else a <= a + 4'd1;
  always @(posedge clk_b or negedge ready_b)
    if (!ready_b) b <= 4'd0;
    else b <= b + a;
endmodule
'''


class Wave(NamedTuple):
    """A waveform: what it shows, its Verilog, the clocks, inputs that begin active with their active level and the other inputs
    with their widths, in the order of the ports, the bits that are controls, and a short stimulus that shows it. What has to
    be done before its text is written, `then`, are commands of Yosys."""
    name: str
    verilog: str
    clocks: int
    resets: Sequence[int]
    others: Sequence[int]
    controls: Sequence[str]
    short: str
    then: str = ''


WAVES = (
    Wave('a reset synchroniser of two registers before a counter', SYNCHRONISER, 1, (0,), (), ('rst_n', 'ready'),
         '0 0, 1 0, 0 0, 1 0, 0 0, 0 1, 1 1, 0 1, 1 1, 0 1, 1 1, 0 1, 1 1, 0 1, 1 1'),
    Wave('a soft reset register', SOFT, 1, (1,), (1, 1), ('rst', 'soft'),
         '0 1 0 0, 1 1 0 0, 0 1 0 0, 1 1 0 0, 0 0 1 0, 1 0 1 0, 0 0 0 0, 1 0 0 0, 0 0 0 0, 1 0 0 0, 0 0 1 1, 1 0 1 1, 0 0 1 0, 1 0 1 0, 0 0 0 0, 1 0 0 0'),
    Wave('a reset given up half a cycle off the edge', OFF_EDGE, 1, (0,), (), ('rst_n', 'ready'),
         '0 0, 1 0, 0 0, 1 0, 1 1, 0 1, 1 1, 0 1, 1 1, 0 1, 0 0, 1 0, 1 1, 0 1, 1 1'),
    Wave('set and reset', SET_AND_RESET, 1, (1,), (1, 1, 2), ('rst', 'set', 'clr'),
         '0 1 0 0 01, 0 0 0 0 01, 1 0 0 0 01, 0 0 0 0 01, 1 0 0 0 01, 0 0 1 0 01, 1 0 1 0 01, 0 0 0 0 10, 1 0 0 0 10, 0 0 0 1 10, '
         '1 0 0 1 10, 0 0 0 0 11, 1 0 0 0 11, 0 0 0 0 11, 1 0 0 0 11', 'proc'),
    Wave('an enable', ENABLE, 1, (0,), (1,), ('rst_n', 'ready'),
         '0 0 0, 1 0 0, 0 0 0, 1 0 0, 0 1 0, 1 1 0, 0 1 1, 1 1 1, 0 1 0, 1 1 0, 0 1 1, 1 1 1, 0 1 1, 1 1 1, 0 0 1, 0 1 1, 1 1 1, 0 1 1, 1 1 1'),
    Wave('a reset active from the start', FROM_START, 1, (), (4,), ('reset',),
         '0 0001, 1 0001, 0 0001, 1 0001, 0 0011, 1 0011, 0 0011'),
    Wave('two clocks', TWO_CLOCKS, 2, (0,), (), ('rst_n', 'ready_a', 'ready_b'),
         '0 0 0, 1 1 0, 0 0 0, 1 1 0, 0 0 0, 0 0 1, 1 0 1, 0 0 1, 1 0 1, 0 0 1, 1 0 1, 0 1 1, 1 1 1, 1 0 1, 0 1 1, 0 0 1, 1 1 1, 1 0 1, 0 0 1, 1 1 1'),
)


def moves(clocks: int, resets: Sequence[int], others: Sequence[int], steps: int, seed: int) -> List[str]:
    """A stimulus in which either clocks or other inputs move in a step; it begins with the clocks low and the resets active."""
    random = Random(seed)
    clock, reset = [0] * clocks, list(resets)
    other = [random.getrandbits(width) for width in others]
    lines = []
    for step in range(steps):
        if step % 3 == 2 and step > 4:
            reset = [level if random.random() < 0.1 else 1 - level for level in resets]
            other = [random.getrandbits(width) for width in others]
        elif step:
            at = random.randrange(clocks)
            clock[at] = 1 - clock[at]
        words = [str(bit) for bit in [*clock, *reset]] + [f'{value:0{width}b}' for value, width in zip(other, others)]
        lines.append(' '.join(words))
    return lines

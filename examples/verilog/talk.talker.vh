// The inside of the talker. It says two words, Hello and You, and pauses for three cycles between them. A sampler looks on.
reg valid;
reg [2:0] taken;  // the transfers that were taken
reg [1:0] pause;  // the cycles before the next one, but for the last of them

always @(posedge clk)
  if (rst) begin
    valid <= 0;
    taken <= 0;
    pause <= 0;
  end else if (valid && \said.ready ) begin
    valid <= taken != 2 && taken != 4;
    taken <= taken + 1;
    pause <= taken == 2 ? 2 : 0;
  end else if (!valid) begin
    valid <= pause == 0 && taken != 5;
    pause <= pause == 0 ? 0 : pause - 1;
  end

assign \said.valid = valid;
// He, the first character in lane 0; ll; o, with which the word ends; Yo; u, with which the word ends.
assign \said.data = taken == 0 ? 16'h6548 : taken == 1 ? 16'h6c6c : taken == 2 ? 16'h006f : taken == 3 ? 16'h6f59 : 16'h0075;
assign \said.last = taken == 2 || taken == 4 ? 2'b10 : 2'b00;
assign \said.endi = taken == 2 || taken == 4 ? 1'b0 : 1'b1;
assign \said.strb = 2'b11;

tydi_sampler #(.FILE_NAME("source.trace"), .CYCLES(16), .LANES(2), .DIMS(1), .LEVEL(2), .ELEMENT_WIDTH(8)) looker_on (
  .clk(clk), .reset(rst), .valid(\said.valid ), .ready(\said.ready ),
  .data(\said.data ), .last(\said.last ), .stai(1'b0), .endi(\said.endi ), .strb(\said.strb ), .user(1'b0));

// The inside of the listener. It is ready in every second cycle. A sampler looks on.
reg ready;

always @(posedge clk) ready <= rst ? 0 : !ready;

assign \heard.ready = ready;

tydi_sampler #(.FILE_NAME("sink.trace"), .CYCLES(16), .LANES(2), .DIMS(1), .LEVEL(7), .ELEMENT_WIDTH(8)) looker_on (
  .clk(clk), .reset(rst), .valid(\heard.valid ), .ready(\heard.ready ),
  .data(\heard.data ), .last(\heard.last ), .stai(\heard.stai ), .endi(\heard.endi ), .strb(\heard.strb ), .user(1'b0));

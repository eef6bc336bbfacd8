%% Erlang/OTP's asn1 (BER) behind a file of requests.
%%   coder DIR compiles DIR/*.asn1, answers each line of DIR/requests by a line of DIR/answers:
%%     dec MODULE TYPE HEX    -> "ok TERM", "rest HEX" (octets left over), or "error"
%%     enc MODULE TYPE TERM.  -> "ok HEX" or "error"
-module(coder).
-export([main/1]).

main([Dir]) ->
    Out = filename:join(Dir, "out"),
    ok = filelib:ensure_dir(filename:join(Out, "x")),
    code:add_patha(Out),
    Bad = [F || F <- lists:sort(filelib:wildcard(filename:join(Dir, "*.asn1"))), not compiled(F, Out)],
    [io:format("not compiled: ~s~n", [F]) || F <- Bad],
    {ok, In} = file:open(filename:join(Dir, "requests"), [read, raw, binary, {read_ahead, 1 bsl 20}]),
    {ok, Ans} = file:open(filename:join(Dir, "answers"), [write, raw, delayed_write]),
    loop(In, Ans),
    ok = file:close(Ans),
    io:format("OTP ~s, asn1 ~s~n", [erlang:system_info(otp_release), version()]).

version() ->
    _ = application:load(asn1),
    {ok, V} = application:get_key(asn1, vsn),
    V.

compiled(File, Out) ->
    case asn1ct:compile(File, [ber, maps, undec_rest, {outdir, Out}]) of
        ok -> true;
        {ok, _} -> true;
        Other -> io:format("~p~n", [Other]), false
    end.

loop(In, Ans) ->
    case file:read_line(In) of
        eof -> ok;
        {ok, Line} ->
            [Op, M, T, Arg] = binary:split(string:trim(Line, trailing, "\n"), <<" ">>, [global]),
            file:write(Ans, [answer(Op, binary_to_atom(M), binary_to_atom(T), Arg), $\n]),
            loop(In, Ans)
    end.

answer(<<"dec">>, M, T, Hex) ->
    try M:decode(T, binary:decode_hex(Hex)) of
        {ok, V, <<>>} -> ["ok ", io_lib:format("~w", [V])];
        {ok, _, Rest} -> ["rest ", binary:encode_hex(Rest)];
        {error, _} -> "error"
    catch _:_ -> "error"
    end;
answer(<<"enc">>, M, T, Text) ->
    {ok, Tokens, _} = erl_scan:string(binary_to_list(Text)),
    {ok, V} = erl_parse:parse_term(Tokens),
    try M:encode(T, V) of
        {ok, B} -> ["ok ", binary:encode_hex(B)];
        {error, _} -> "error"
    catch _:_ -> "error"
    end.

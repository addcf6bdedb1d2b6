#!/usr/bin/env escript
%% Prints the DER encoding of each value of a file, a line of hexadecimal text for each, by Erlang's ASN.1 compiler.
%%
%%     examples/der.escript MODULE.asn TYPE FILE.hex
%%
%% Erlang wants the module in a file of the module's name, so it is copied to one in a folder of its own.

main([Module, Type, File]) ->
    {ok, Text} = file:read_file(Module),
    {match, [Name]} = re:run(Text, "(?:^|\n)([A-Z][A-Za-z0-9-]*) DEFINITIONS", [{capture, all_but_first, list}]),
    Folder = string:trim(os:cmd("mktemp -d")),
    ok = file:write_file(filename:join(Folder, Name ++ ".asn"), Text),
    ok = asn1ct:compile(filename:join(Folder, Name), [ber, der, undec_rest, {outdir, Folder}]),
    true = code:add_path(Folder),
    {ok, Hex} = file:read_file(File),
    Digits = [It || <<It>> <= Hex, It > $\s],
    write(list_to_atom(Name), list_to_atom(Type), binary:decode_hex(list_to_binary(Digits))),
    os:cmd("rm -rf " ++ Folder).

write(_, _, <<>>) ->
    ok;
write(Module, Type, Octets) ->
    {ok, Value, Rest} = Module:decode(Type, Octets),
    {ok, Der} = Module:encode(Type, Value),
    io:format("~s~n", [string:lowercase(binary:encode_hex(Der))]),
    write(Module, Type, Rest).

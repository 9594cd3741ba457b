#!/bin/sh
# What two nodes of Mnesia let an orphan of a crash see. x stands at the node `one` and y at the node `two`, both 1, and who writes one writes the
# other alike. C, a transaction that runs at `two`, reads x. Then `one` crashes and comes back: C's lock of x is gone. D, another transaction at
# `two`, writes 2 to both and commits. Then C reads y, and ends. No time is measured.
# bench/mnesia.sh          wants Erlang with Mnesia (erlang-mnesia)
set -eu

room=$(mktemp -d)
export HOME="$room" ERL_EPMD_PORT=43690

# ends the node `one`, and the daemon by which the nodes find each other, which goes only where no node is left
stop_all() {
    [ ! -f "$room/one.pid" ] || kill -9 "$(cat "$room/one.pid")" 2>/dev/null || true
    for _ in 1 2 3 4 5; do
        epmd -kill >/dev/null 2>&1 && break
        sleep 1
    done
    rm -rf "$room"
}
trap stop_all EXIT

cat >"$room/scene" <<'ERLANG'
#!/usr/bin/env escript
%%! -name two@127.0.0.1 -setcookie scene -kernel logger_level none

%% Starts the node `one`, with its folder and its process number beside it.
start_one(Room) ->
    os:cmd("erl -detached -noinput -name one@127.0.0.1 -setcookie scene -kernel logger_level none -mnesia dir '\"" ++ Room ++ "/one\"'"),
    until(fun() ->
        net_adm:ping('one@127.0.0.1') =:= pong andalso
            rpc:call('one@127.0.0.1', init, get_status, []) =:= {started, started}
    end),
    ok = file:write_file(Room ++ "/one.pid", rpc:call('one@127.0.0.1', os, getpid, [])).

until(Holds) ->
    until(Holds, 200).

until(Holds, Left) when Left > 0 ->
    case Holds() of
        true -> ok;
        false -> timer:sleep(100), until(Holds, Left - 1)
    end.

write_both(Value) ->
    mnesia:transaction(fun() -> mnesia:write({x, 1, Value}), mnesia:write({y, 1, Value}) end).

%% C tells what it reads, and waits between its two reads.
run_c(Told) ->
    Told ! {ended, mnesia:transaction(fun() ->
        [{x, 1, X}] = mnesia:read(x, 1),
        Told ! {reads, x, X},
        receive go -> ok end,
        [{y, 1, Y}] = mnesia:read(y, 1),
        Told ! {reads, y, Y},
        ok
    end)}.

tell_until(Last) ->
    receive
        {reads, Object, Value} ->
            io:format("C reads ~p = ~p~n", [Object, Value]),
            case Last of {reads, Object} -> ok; _ -> tell_until(Last) end;
        {ended, Outcome} -> io:format("C has ended: ~p~n", [Outcome])
    after 10000 -> io:format("C waits~n")
    end.

main([Room]) ->
    One = 'one@127.0.0.1',
    start_one(Room),
    application:set_env(mnesia, dir, Room ++ "/two"),
    ok = mnesia:create_schema([One, node()]),
    ok = rpc:call(One, mnesia, start, []),
    ok = mnesia:start(),
    io:format("Mnesia ~s~n", [mnesia:system_info(version)]),
    {atomic, ok} = mnesia:create_table(x, [{disc_copies, [One]}]),
    {atomic, ok} = mnesia:create_table(y, [{disc_copies, [node()]}]),
    {atomic, ok} = write_both(1),
    Told = self(),
    C = spawn(fun() -> run_c(Told) end),
    tell_until({reads, x}),
    os:cmd("kill -9 $(cat " ++ Room ++ "/one.pid)"),
    until(fun() -> not lists:member(One, mnesia:system_info(running_db_nodes)) end),
    start_one(Room),
    ok = rpc:call(One, mnesia, start, []),
    ok = rpc:call(One, mnesia, wait_for_tables, [[x], 10000]),
    until(fun() -> lists:member(One, mnesia:system_info(running_db_nodes)) end),
    io:format("the node of x has crashed, and is back~n"),
    {atomic, ok} = write_both(2),
    io:format("D has written x = 2 and y = 2, and committed~n"),
    C ! go,
    tell_until(ended).
ERLANG
escript "$room/scene" "$room"

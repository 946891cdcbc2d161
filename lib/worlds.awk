# Prints random pairs of worlds, scripts of ipcsh: awk -v pairs=N -v seed=S -v folder=F -f worlds.awk writes F/1.with and
# F/1.without up to F/N.with and F/N.without. Both scripts of a pair begin alike. Then eve makes the same calls in both, and
# between these, in the first alone, the others call at objects that are hidden from her: she has no right on them, as none
# of the users and groups that she may become, no attachment and nothing there that her exit would undo. eve alone moves the
# clock. She forks and clones into kid and tom, or they begin as other processes, and they call as others do then. With -v all=1 the others call at any object, so that she can notice.

function below(n) { return int(rand() * n) }
function one_of(list,  parts) { return parts[1 + below(split(list, parts, " "))] }
function say(line) { print line > with; print line > without }

function other() { return one_of("bob carol dan owen fay kid tom") }
function kind() { return one_of("q s m") }

# The identifier of an object, or one that no object has.
function object(k) { return below(made[k] + 1) }

# A client takes on another user and group, which it may.
function become(client, uid, gid, groups) {
    say(client " setcreds " uid " " gid groups)
    user[client] = uid
    group[client] = gid
}

function change(  which) {
    which = below(3)
    if (which == 0) become("eve", one_of("100 150"), one_of("10 15"))
    else if (which == 1) become("carol", one_of("300 150"), one_of("30 20"))
    else become("owen", one_of("400 200 150 100"), one_of("40 20 15"), below(2) ? "" : " groups=" one_of("- 10,20"))
}

# What this client creates has a user or a group that eve may become.
function in_reach(client) { return user[client] ~ /^1[05]0$/ || group[client] ~ /^1[05]$/ }

# A client makes an object of the next key. The mode gives eve something where its last digit isn't 0.
function make(client, k, mode) {
    if (k == "q") say(client " msgget " ++key " " mode)
    if (k == "s") say(client " semget " ++key " 3 " mode)
    if (k == "m") say(client " shmget " ++key " 16 " mode)
    seen[k, made[k]] = in_reach(client) || mode !~ /0$/
    owner[k, made[k]++] = client
}

# What kid and tom have attached are eve's attachments, or copies of them.
function has_eves(client) { return client == "kid" || client == "tom" }

# A client attaches a segment, as its next number.
function attach(client, id) {
    if (has_eves(client)) return
    say(client " shmat " id " 0")
    segment[client, attached[client]++] = id
    if (client == "eve") seen["m", id] = 1
}

function operation() { return below(3) ":" below(6) - 3 one_of(":0 :04000 :04000 :04000 :014000 :014000 :014000") }
function timed_operation() { return below(3) ":" below(6) - 3 one_of(":0 :010000 :04000 :014000") }

# Calls that read or change what an object holds.
function queue_call(id) {
    if (below(5) < 3) return "msgsnd " id " " 1 + below(3) " t:" substr("abcdefghij", 1, 1 + below(9)) " " one_of("0 04000 04000 04000 04000")
    return "msgrcv " id " " below(9) " " below(5) - 2 " " one_of("0 04000 04000 04000 014000 024000")
}

function set_call(id,  which) {
    which = below(15)
    if (which >= 10) return "semtimedop " id " " one_of("0 1 2 2 5") " " timed_operation() (which > 12 ? " " timed_operation() : "")
    if (which < 6) return "semop " id " " operation() (which < 3 ? " " operation() : "")
    if (which == 6) return "setval " id " " below(4) " " below(5)
    if (which == 7) return "setall " id " 1 2 " below(5)
    return which == 8 ? "getall " id : one_of("getval getpid getncnt getzcnt") " " id " " below(3)
}

function segment_call(number) {
    if (below(3)) return "shmwrite " number " " below(14) " t:" substr("klmnopqrst", 1, 1 + below(5))
    return "shmread " number " " below(12) " " below(6)
}

# What eve may notice of a client's calls there: an object, or for a segment the client's number of it.
function may_notice(client, k, id) {
    return k == "m" ? id >= attached[client] || seen["m", segment[client, id]] : id >= made[k] || seen[k, id]
}

# A client's call at what an object holds. In the first world alone it is one that eve may not notice, of the first object
# of nine picked ones that is hidden from her.
function use(client, hidden,  k, id, tries, line) {
    do {
        k = kind()
        id = k == "m" ? below(3) : object(k)
    } while (hidden && !all && may_notice(client, k, id) && ++tries < 9)
    if (tries == 9 || k == "m" && (id >= attached[client] || has_eves(client))) return
    line = client " " (k == "q" ? queue_call(id) : k == "s" ? set_call(id) : segment_call(id))
    if (hidden) print line > with; else say(line)
}

# A get of a key, but for its flags.
function get_of(key) { return below(2) ? "msgget " key : one_of("semget shmget") " " key " " below(3) }

# What eve may call beside: what is there, whose it is, who she is, and her own end.
function eves_call(  which, k) {
    which = below(14)
    k = kind()
    if (which < 3) say("eve stat " k " " object(k))
    else if (which == 3) say("eve ipcs -" one_of("q s m"))
    else if (which == 4) make("eve", k, "01600")
    else if (which == 5) say("eve set " k " " object(k) " " one_of("100 200") " 10 06" one_of("00 66"))
    else if (which == 6) say("eve rmid " k " " object(k))
    else if (which == 7) say("eve interrupt " 1 + below(7))
    else if (which == 8) say("eve shmat " object("m") " " one_of("0 010000"))
    else if (which == 9) say("eve shmdt " below(3))
    else if (which == 10) say("eve " get_of(below(key + 1)) " 0")
    else if (which > 11) say("eve setcreds " one_of("100 150 150 200") " " one_of("10 10 15 20") (below(9) ? "" : " groups=20"))
    else say(below(20) ? "eve getall " object("s") : "eve exit")
}

# A client begins as another process.
function begin(client, pid, creds) {
    say(client " exit")
    say(client " begin " pid " " creds)
}

# At the start a thread of hers may take on a user to whom more is open than to her.
function assume(client) { say(client " assume " one_of("200 300 400") " 20" (below(2) ? "" : " caps=IPC_OWNER")) }

# What she may call on processes and threads. A kill of a process of her user, as fay's may be, undoes what that did at objects that are hidden
# from her.
function eves_life(  which) {
    which = below(13)
    if (which < 3) say("eve fork kid " one_of("8 9 20 21"))
    else if (which < 6) say("eve clone tom")
    else if (which == 6) say("eve exec")
    else if (which == 7) say("eve name " 20 + below(3))
    else if (which < 10) say("eve kill " one_of("1 2 6 6 7 8 9 20 21 30 31 40"))
    else if (which == 10) say("eve interrupt " one_of("kid tom fay bob"))
    else say("eve interrupt " one_of("1 6 8 9 20 21 30 31 40"))
}

# A call of eve, which may move the clock on. The others pass a time that doesn't.
function eves_turn(  moves) {
    moves = !below(3)
    if (moves) say("clock " (now += 1 + below(3)))
    if (!below(4)) eves_life(); else if (below(3)) use("eve"); else eves_call()
    if (moves) say("clock 0")
}

function join(name, uid, gid, rest) {
    say("client " name " " uid " " gid rest)
    user[name] = uid
    group[name] = gid
}

# One pair: the world as it is, and then eve's calls, the others' at what is hidden from her between them.
function pair(n,  i, client, k) {
    with = folder "/" n ".with"
    without = folder "/" n ".without"
    split("", made); split("", seen); split("", owner); split("", attached); split("", segment)
    key = made["q"] = made["s"] = made["m"] = 0
    say("limit msgmnb 40")
    join("eve", 100, 10, " saved=150:15")
    join("bob", 200, 20)
    join("carol", 300, 30, " groups=20 saved=150:20")
    join("dan", 200, 20)
    join("owen", 400, 40, " caps=IPC_OWNER,SETUID,SETGID")
    join("fay", 150, 15, " groups=20")
    join("kid", 100, 10)
    join("tom", 100, 10)
    if (below(2)) begin("eve", 40, "100 10 saved=150:15")
    for (i = 0; i < 2; i++) {
        client = i ? "kid" : "tom"
        if (!below(4)) {
            begin(client, 30 + i, one_of("200 300 150") " 20")
            continue
        }
        say(client " exit")
        if (!below(3)) continue
        say(i ? "eve fork kid 8" : "eve clone tom")
        assume(client)
    }
    say("clock " (now = 1 + below(9)))
    for (i = 0; i < 9; i++) {
        if (!below(3)) change()
        make(one_of("eve bob bob carol carol dan owen fay"), kind(), one_of("01600 01660 01660 01666 01606 01660"))
    }
    for (i = 0; i < 6; i++) if (made["m"]) {
        id = below(made["m"])
        client = other()
        if (owner["m", id] == "eve" || !seen["m", id]) client = below(2) && owner["m", id] == "eve" ? "eve" : "owen"
        attach(client, id)
    }
    for (i = 0; i < 12; i++) use(other())
    for (i = 0; i < 4; i++) use("eve")
    for (i = 0; i < 40; i++) if (below(2)) use(other(), 1); else eves_turn()
    for (i = 0; i < made["q"]; i++) say("eve msgrcv " i " 99 0 04000")
    for (i = 0; i < made["s"]; i++) say("eve getall " i)
    say("eve ipcs")
    say("eve setcreds 150 15")
    say("eve ipcs")
    close(with)
    close(without)
}

BEGIN {
    srand(seed)
    for (n = 1; n <= pairs; n++) pair(n)
}

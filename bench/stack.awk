# Reads `objdump -dr --no-show-raw-insn`; prints a table of stack use for the functions named in `exported`.
#
# For each function: frame[f], its deepest point without calls and without its return address; calls[f] of them
# callee[f, i] at depth[f, i]; and notes where the depth can't be told from the code.

# A function begins; the one before it is complete.
/^[0-9a-f]+ <.*>:$/ {
    finish()
    name = $0
    sub(/^[0-9a-f]+ </, "", name)
    sub(/>:$/, "", name)
    next
}

# A relocation belongs to the instruction before it and names what the linker will put there.
/R_X86_64_/ {
    if (length_now > 0) {
        symbol = $NF
        sub(/[-+]0x[0-9a-f]+$/, "", symbol)
        linked[length_now] = symbol
    }
    next
}

/^ *[0-9a-f]+:\t/ {
    line = $0
    address = line
    sub(/:.*/, "", address)
    gsub(/ /, "", address)
    sub(/^ *[0-9a-f]+:\t/, "", line)
    length_now++
    at[length_now] = address
    text[length_now] = line
    place[address] = length_now
}

END {
    finish()
    report()
}

function finish() {
    if (name != "" && length_now > 0)
        follow(name)
    length_now = 0
    split("", at)
    split("", text)
    split("", place)
    split("", linked)
    name = ""
}

# Goes along every path once: compiled code has the same depth at an instruction however it got there.
function follow(f,    i, open_paths) {
    split("", seen)
    frame[f] = 0
    calls[f] = 0
    rbp_depth = 0
    open_paths = 1
    path_at[1] = 1
    path_depth[1] = 0
    while (open_paths > 0) {
        i = path_at[open_paths]
        here = path_depth[open_paths]
        open_paths--
        while (i >= 1 && i <= length_now && !(i in seen)) {
            seen[i] = 1
            deepest(f, here + red_zone(text[i]))
            here = after(f, i, here)
            deepest(f, here)
            open_paths = branch(f, i, here, open_paths)
            i = goes_on ? i + 1 : 0
        }
    }
}

function deepest(f, now) {
    if (now > frame[f])
        frame[f] = now
}

# Bytes below the stack pointer that an instruction uses: a function that calls none may use 128.
function red_zone(t) {
    return t ~ /-0x[0-9a-f]+\(%rsp/ && t !~ /^lea/ ? constant(substr(t, index(t, "-0x"))) : 0
}

# The depth behind an instruction.
function after(f, i, now,    t) {
    t = text[i]
    if (t ~ /^push/)
        return now + 8
    if (t ~ /^pop/)
        return now - 8
    if (t ~ /^leave/)
        return rbp_depth - 8
    if (t ~ /^mov +%rsp,%rbp/)
        rbp_depth = now
    if (t ~ /^lea +-0x[0-9a-f]+\(%rsp\),%r11/)
        probed = now + constant(t)
    # The loop that touches each page of a large frame ends at what r11 was set to.
    if (t ~ /^cmp +%r11,%rsp/)
        return probed
    if (t ~ /,%rsp$/ && t !~ /^(cmp|test)/)
        return moved(f, t, now)
    return now
}

# An instruction that sets the stack pointer.
function moved(f, t, now) {
    if (t ~ /^sub +\$/)
        return now + constant(t)
    if (t ~ /^add +\$/)
        return now - constant(t)
    if (t ~ /^lea +-?0x[0-9a-f]+\(%rsp\)/)
        return now + (t ~ /-0x/ ? 1 : -1) * constant(t)
    if (t ~ /^lea +-0x[0-9a-f]+\(%rbp\)/)
        return rbp_depth + constant(t)
    if (t ~ /^mov +%rbp,%rsp/)
        return rbp_depth
    # Aligning takes at most the alignment less one.
    if (t ~ /^and +\$/)
        return now - constant(t) - 1
    note[f] = "a depth set at run time"
    return now
}

# Where an instruction leads: adds paths, notes calls, and says in goes_on whether the next one follows.
function branch(f, i, now, open_paths,    t, target) {
    t = text[i]
    goes_on = t !~ /^((repz )?ret|(notrack )?jmp|ud2|hlt)/
    if (t ~ /^call/) {
        called(f, i, now)
    } else if (t ~ /^(notrack )?jmp +\*/ && !(i in linked)) {
        # A table of places in this function, all at this depth; the first is taken up first, and leads on.
        for (target = length_now; target >= 1; target--)
            if (!(target in seen))
                open_paths = push_path(target, now, open_paths)
    } else if (t ~ /^(notrack )?j/) {
        target = t
        sub(/^(notrack )?j[a-z]+(,p[nt])? +/, "", target)
        sub(/ .*/, "", target)
        if (!(i in linked) && (target in place))
            open_paths = push_path(place[target], now, open_paths)
        else
            # A jump out of the function is a call whose return address is this function's own.
            called(f, i, now - 8)
    }
    return open_paths
}

function push_path(target, now, open_paths) {
    open_paths++
    path_at[open_paths] = target
    path_depth[open_paths] = now
    return open_paths
}

function called(f, i, now,    who) {
    who = linked[i]
    if (who == "" && match(text[i], /<[^>]+>/)) {
        who = substr(text[i], RSTART + 1, RLENGTH - 2)
        sub(/\+0x[0-9a-f]+$/, "", who)
    }
    sub(/^\.text\.(unlikely\.)?/, "", who)
    if (who == "") {
        note[f] = "a call through a pointer"
        return
    }
    calls[f]++
    callee[f, calls[f]] = who
    depth[f, calls[f]] = now
}

# The number in an instruction, 0xff.. taken as negative.
function constant(t,    digits, sum, i) {
    match(t, /0x[0-9a-f]+/)
    digits = substr(t, RSTART + 2, RLENGTH - 2)
    sum = 0
    # Beyond 32 bits only the sign counts, and a double holds no more than 53.
    for (i = length(digits) > 8 ? length(digits) - 7 : 1; i <= length(digits); i++)
        sum = 16 * sum + index("0123456789abcdef", substr(digits, i, 1)) - 1
    return length(digits) == 16 && sum >= 2147483648 ? sum - 4294967296 : sum
}

# All that a call to f takes, its return address included. through[f] is the chain that takes it.
function whole(f,    i, deep, who) {
    if (f in total)
        return total[f]
    if (!(f in frame)) {
        outside[f] = 1
        return 8
    }
    if (f in under_way) {
        note[f] = "recursion"
        return 8
    }
    under_way[f] = 1
    total[f, "best"] = 8 + frame[f]
    for (i = 1; i <= calls[f]; i++) {
        who = callee[f, i]
        deep = 8 + depth[f, i] + whole(who)
        if (deep > total[f, "best"]) {
            total[f, "best"] = deep
            # A function that is under way is in the chain already.
            if (!(who in under_way))
                next_in[f] = who
        }
        inherit(f, who)
    }
    delete under_way[f]
    total[f] = total[f, "best"]
    return total[f]
}

# Notes and outside functions of a callee are its caller's too.
function inherit(f, who,    names, count, i) {
    count = split(who in outside ? who : names_outside[who], names, " ")
    for (i = 1; i <= count; i++)
        if (index(names_outside[f] " ", " " names[i] " ") == 0)
            names_outside[f] = names_outside[f] " " names[i]
    if (note[f] == "" && note[who] != "")
        note[f] = note[who] (note[who] ~ / in / ? "" : " in " who)
}

function chain(f,    said) {
    said = f
    while (f in next_in) {
        f = next_in[f]
        said = said " > " f
    }
    return said
}

function report(    wanted, count, i, f) {
    count = split(exported, wanted, "\n")
    print "Stack of each exported call in bytes, return addresses included"
    printf "%-16s %6s %7s  %s\n", "call", "own", "in all", "deepest chain"
    for (i = 1; i <= count; i++) {
        f = wanted[i]
        printf "%-16s %6d %7d  %s\n", f, 8 + frame[f], whole(f), chain(f)
        if (names_outside[f] != "")
            printf "%-16s %6s %7s  calls outside the archive:%s\n", "", "", "", names_outside[f]
        if (note[f] != "")
            printf "%-16s %6s %7s  not told by the code: %s\n", "", "", "", note[f]
    }
}

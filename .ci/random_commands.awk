# Writes 10,000 random commands of a trace, always the same ones: the numbers are those of Park and Miller's minimal standard generator (1988).
# What no collection changes is asked for, and nothing else: so of object ids, weak maps and finalizers only what rests on objects that are reached.
# The last quarter of each thousand makes large objects, until a heap of three pages has no room for one while a marking is under way. A compaction
# that `compact` begins is cut by the moves and corrections that the caller puts between the commands.

# A number from 0 to n - 1.
function below(n) {
    seed = seed * 16807 % 2147483647
    return seed % n
}

function say(line) {
    if (number++ < 10000) print line
}

# A root of an object, and one for what is loaded.
function root() {
    return substr("abcdef", below(6) + 1, 1)
}

function loaded() {
    return substr("pqr", below(3) + 1, 1)
}

# A root, or a stack word, of which there may be fewer than `depth`, as a push can be refused.
function operand(    pick) {
    pick = below(12)
    return pick == 0 && depth > 0 ? "@" below(depth) : pick < 4 ? loaded() : root()
}

# A root of an object to which it always leads.
function lasting() {
    return "lasting" below(3)
}

function value(    pick) {
    pick = below(16)
    return pick == 0 ? "nil" : pick == 1 ? "=" below(1000) : operand()
}

function make(name, fields) {
    say("new " name " " fields " " (below(3) == 0 ? "U" : "P") " M")
}

function push() {
    say("push " value())
    depth++
}

function pop() {
    say("pop")
    if (depth > 0) depth--
}

# A new object that only a field holds: one of a protected object, of an unprotected one, or of one that was protected.
function hide(    object, way) {
    object = root()
    way = below(4)
    make("child", 2)
    if (way == 0) say("unprotect " object)
    say((way < 2 ? "rawstore " : "store ") object " " below(2) " child")
    say("drop child")
}

# Ids are given to anything, and looked up only of lasting objects; the one of 99992 is never given.
function identify(    pick) {
    pick = below(8)
    if (pick < 5) say("id " operand())
    else if (pick < 6) say("id " lasting())
    else if (pick < 7) say("byid " loaded() " " 8 * (below(3) + 1))
    else say("byid " loaded() " " (below(2) == 0 ? below(8) : 99992))
}

# The map `lasting` has only lasting objects, and `valued` only values that are, so their entries stay where keys can be asked for. Of `loose` entries
# go when a collection takes their objects, so it isn't read.
function weak(    pick) {
    pick = below(12)
    if (pick < 2) say("wset lasting " lasting() " " lasting())
    else if (pick < 3) say("wget " loaded() " lasting " lasting())
    else if (pick < 4) say("wsize lasting")
    else if (pick < 5) say("wdel lasting " lasting())
    else if (pick < 7) say("wset valued " operand() " " lasting())
    else if (pick < 8) say("wget " loaded() " valued " operand())
    else if (pick < 9) say("wkey valued " operand())
    else if (pick < 10) say("wdel valued " operand())
    else say("wset loose " operand() " " operand())
}

# Finalizers are defined, and some taken away before their objects go.
function finalize(    pick) {
    pick = below(4)
    if (pick < 3) say("final " operand() " " substr("xyz", below(3) + 1, 1))
    else say("unfinal " operand())
}

function mutate(    pick) {
    pick = below(116)
    if (pick >= 112) finalize()
    else if (pick >= 106) weak()
    else if (pick >= 100) identify()
    else if (pick < 12) make(root(), substr("233338888", below(9) + 1, 1))
    else if (pick < 20) hide()
    else if (pick < 38) say("store " operand() " " below(3) " " value())
    else if (pick < 46) say("rawstore " operand() " " below(3) " " value())
    else if (pick < 76) say("load " loaded() " " operand() " " below(3))
    else if (pick < 85) say("same " operand() " " operand())
    else if (pick < 89) say("set " root() " " operand())
    else if (pick < 91) say("drop " root())
    else if (pick < 95 && depth < 6) push()
    else if (pick < 99) pop()
    else say("unprotect " operand())
}

function collect(    pick) {
    pick = below(17)
    if (pick >= 14) say("compact")
    else if (pick >= 13) say("run " below(20))
    else if (pick < 2) say("minor")
    else if (pick < 3) say("gc")
    else if (pick < 7) say("major")
    else if (pick < 10) say("finish")
    else say("sweep " below(4))
}

BEGIN {
    seed = 3
    for (k = 0; k < 3; k++) {
        make("lasting" k, 2)
        say("id lasting" k)
    }
    while (number < 10000) {
        was_crowded = is_crowded
        is_crowded = number % 1000 >= 750
        if (is_crowded && !was_crowded) say("major")
        else if (is_crowded && below(2) == 0) make(root(), 78)
        else if (!is_crowded && below(16) == 0) collect()
        else mutate()
    }
}

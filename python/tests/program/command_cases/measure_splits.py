"""The cases of `measure` with graphs that a predicate splits."""

from tests.program.command_cases import CALLS, measured, unmeasured

CASES = [
    measured(
        "nodes told apart by a predicate",
        "cover NODES(PRED(@FUNC(g),{v == 9}))",
        "9\n2\n",
        (
            "goals 4 inputs 2\ninput 1 returned 9\ninput 2 returned 0\ngoal 1 covered 1 n0@p.c:1 . {v == 9}\n"
            "goal 2 missed n0@p.c:1 . !{v == 9}\ngoal 3 covered 1 n1@p.c:1 . {v == 9}\n"
            "goal 4 missed n1@p.c:1 . !{v == 9}\nsuite 1\ncovered 2 of 4\n"
        ),
        sources={"p.c": CALLS},
    ),
    measured(
        "an edge told apart by a predicate before and after it",
        "cover PRED(@CALL(g),{y == 0})",
        "9\n2\n",
        (
            "goals 4 inputs 2\ninput 1 returned 9\ninput 2 returned 0\n"
            "goal 1 missed {y == 0} . e4@p.c:5 . {y == 0}\ngoal 2 covered 1 {y == 0} . e4@p.c:5 . !{y == 0}\n"
            "goal 3 missed !{y == 0} . e4@p.c:5 . {y == 0}\ngoal 4 missed !{y == 0} . e4@p.c:5 . !{y == 0}\n"
            "suite 1\ncovered 1 of 4\n"
        ),
        sources={"p.c": CALLS},
    ),
    unmeasured(
        "a split graph has no paths",
        "cover PATHS(PRED(ID,{y == 0}),1)",
        "9\n2\n",
        "error 61 QuerySyntax query",
        4,
        sources={"p.c": CALLS},
    ),
    unmeasured(
        "a split graph is no base graph",
        "in PRED(ID,{y == 0}) cover ID",
        "9\n2\n",
        "error 61 QuerySyntax query",
        4,
        sources={"p.c": CALLS},
    ),
    unmeasured(
        "a split graph is no operand",
        "cover UNION(ID,PRED(ID,{y == 0}))",
        "9\n2\n",
        "error 61 QuerySyntax query",
        4,
        sources={"p.c": CALLS},
    ),
    measured(
        "nodes told apart by two predicates, the inner one outermost",
        "cover NODES(PRED(PRED(@LINE(7),{x == 9}),{y == 9}))",
        "9\n2\n",
        (
            "goals 8 inputs 2\ninput 1 returned 9\ninput 2 returned 0\n"
            "goal 1 missed n3@p.c:8 . {x == 9} . {y == 9}\ngoal 2 covered 1 n3@p.c:8 . {x == 9} . !{y == 9}\n"
            "goal 3 missed n3@p.c:8 . !{x == 9} . {y == 9}\ngoal 4 covered 2 n3@p.c:8 . !{x == 9} . !{y == 9}\n"
            "goal 5 covered 1 n5@p.c:7 . {x == 9} . {y == 9}\ngoal 6 missed n5@p.c:7 . {x == 9} . !{y == 9}\n"
            "goal 7 missed n5@p.c:7 . !{x == 9} . {y == 9}\ngoal 8 covered 2 n5@p.c:7 . !{x == 9} . !{y == 9}\n"
            "suite 1 2\ncovered 4 of 8\n"
        ),
        sources={"p.c": CALLS},
    ),
    measured(
        "a text that an inner split has already adds nothing",
        "cover NODES(PRED(PRED(PRED(@FUNC(g),{v == 9}),{v > 1}),{v == 9}))",
        "9\n2\n",
        (
            "goals 8 inputs 2\ninput 1 returned 9\ninput 2 returned 0\n"
            "goal 1 covered 1 n0@p.c:1 . {v == 9} . {v > 1}\ngoal 2 missed n0@p.c:1 . {v == 9} . !{v > 1}\n"
            "goal 3 missed n0@p.c:1 . !{v == 9} . {v > 1}\ngoal 4 missed n0@p.c:1 . !{v == 9} . !{v > 1}\n"
            "goal 5 covered 1 n1@p.c:1 . {v == 9} . {v > 1}\ngoal 6 missed n1@p.c:1 . {v == 9} . !{v > 1}\n"
            "goal 7 missed n1@p.c:1 . !{v == 9} . {v > 1}\ngoal 8 missed n1@p.c:1 . !{v == 9} . !{v > 1}\n"
            "suite 1\ncovered 2 of 8\n"
        ),
        sources={"p.c": CALLS},
    ),
    measured(
        "a predicate out of scope is absent",
        "cover NODES(PRED(@FUNC(g),{y == 0})) + @CALL(g).{!(y == 0)}",
        "9\n2\n",
        (
            "goals 5 inputs 2\ninput 1 returned 9\ninput 2 returned 0\ngoal 1 missed n0@p.c:1 . {y == 0}\n"
            "goal 2 covered 1 n0@p.c:1 . !{y == 0}\ngoal 3 missed n1@p.c:1 . {y == 0}\n"
            "goal 4 covered 1 n1@p.c:1 . !{y == 0}\ngoal 5 missed e4@p.c:5 . {!(y == 0)}\nsuite 1\n"
            "covered 2 of 5\n"
        ),
        sources={"p.c": CALLS},
    ),
    measured(
        "a predicate that traps is absent",
        "cover NODES(PRED(@LINE(7),{10 / y == 1}))",
        "9\n2\n",
        (
            "goals 4 inputs 2\ninput 1 returned 9\ninput 2 returned 0\ngoal 1 missed n3@p.c:8 . {10 / y == 1}\n"
            "goal 2 covered 1 n3@p.c:8 . !{10 / y == 1}\ngoal 3 covered 1 n5@p.c:7 . {10 / y == 1}\n"
            "goal 4 covered 2 n5@p.c:7 . !{10 / y == 1}\nsuite 1 2\ncovered 3 of 4\n"
        ),
        sources={"p.c": CALLS},
    ),
    measured(
        "splits in products, with anchors and a passing clause, where a split tells nothing apart",
        "cover ^NODES(PRED(@ENTRY(f),{x > 3})) -> PRED(@LINE(7),{y == 9})$ passing ^PRED(ID,{x == 9})*$",
        "9\n2\n",
        (
            "goals 16 inputs 2\ninput 1 returned 9\ninput 2 returned 0\n"
            'goal 1 missed n2@p.c:2 . {x > 3} . "ID*" . {y == 9} . e7@p.c:7 . {y == 9}\n'
            'goal 2 covered 1 n2@p.c:2 . {x > 3} . "ID*" . {y == 9} . e7@p.c:7 . !{y == 9}\n'
            'goal 3 missed n2@p.c:2 . {x > 3} . "ID*" . !{y == 9} . e7@p.c:7 . {y == 9}\n'
            'goal 4 missed n2@p.c:2 . {x > 3} . "ID*" . !{y == 9} . e7@p.c:7 . !{y == 9}\n'
            'goal 5 missed n2@p.c:2 . !{x > 3} . "ID*" . {y == 9} . e7@p.c:7 . {y == 9}\n'
            'goal 6 missed n2@p.c:2 . !{x > 3} . "ID*" . {y == 9} . e7@p.c:7 . !{y == 9}\n'
            'goal 7 missed n2@p.c:2 . !{x > 3} . "ID*" . !{y == 9} . e7@p.c:7 . {y == 9}\n'
            'goal 8 covered 2 n2@p.c:2 . !{x > 3} . "ID*" . !{y == 9} . e7@p.c:7 . !{y == 9}\n'
            'goal 9 missed n4@p.c:4 . {x > 3} . "ID*" . {y == 9} . e7@p.c:7 . {y == 9}\n'
            'goal 10 missed n4@p.c:4 . {x > 3} . "ID*" . {y == 9} . e7@p.c:7 . !{y == 9}\n'
            'goal 11 missed n4@p.c:4 . {x > 3} . "ID*" . !{y == 9} . e7@p.c:7 . {y == 9}\n'
            'goal 12 missed n4@p.c:4 . {x > 3} . "ID*" . !{y == 9} . e7@p.c:7 . !{y == 9}\n'
            'goal 13 missed n4@p.c:4 . !{x > 3} . "ID*" . {y == 9} . e7@p.c:7 . {y == 9}\n'
            'goal 14 missed n4@p.c:4 . !{x > 3} . "ID*" . {y == 9} . e7@p.c:7 . !{y == 9}\n'
            'goal 15 missed n4@p.c:4 . !{x > 3} . "ID*" . !{y == 9} . e7@p.c:7 . {y == 9}\n'
            'goal 16 missed n4@p.c:4 . !{x > 3} . "ID*" . !{y == 9} . e7@p.c:7 . !{y == 9}\nsuite 1 2\n'
            "covered 2 of 16\n"
        ),
        sources={"p.c": CALLS},
    ),
    measured(
        "splits in a sum",
        "cover {x == 9}.PRED(@CALL(g),{y == 0}) + NODES(PRED(@FUNC(g),{v == 9}))",
        "9\n2\n",
        (
            "goals 8 inputs 2\ninput 1 returned 9\ninput 2 returned 0\n"
            "goal 1 missed {x == 9} . {y == 0} . e4@p.c:5 . {y == 0}\n"
            "goal 2 covered 1 {x == 9} . {y == 0} . e4@p.c:5 . !{y == 0}\n"
            "goal 3 missed {x == 9} . !{y == 0} . e4@p.c:5 . {y == 0}\n"
            "goal 4 missed {x == 9} . !{y == 0} . e4@p.c:5 . !{y == 0}\ngoal 5 covered 1 n0@p.c:1 . {v == 9}\n"
            "goal 6 missed n0@p.c:1 . !{v == 9}\ngoal 7 covered 1 n1@p.c:1 . {v == 9}\n"
            "goal 8 missed n1@p.c:1 . !{v == 9}\nsuite 1\ncovered 3 of 8\n"
        ),
        sources={"p.c": CALLS},
    ),
    measured(
        "a split in a quoted expression tells nothing apart",
        'cover "NODES(PRED(@FUNC(g),{v == 9})).PRED(@FUNC(g),{v == 2})"',
        "9\n2\n",
        (
            "goals 1 inputs 2\ninput 1 returned 9\ninput 2 returned 0\n"
            'goal 1 covered 1 "NODES(PRED(@FUNC(g),{v == 9})).PRED(@FUNC(g),{v == 2})"\nsuite 1\n'
            "covered 1 of 1\n"
        ),
        sources={"p.c": CALLS},
    ),
    measured(
        "words that a sum has twice, one of them from a split",
        "cover NODES(@FUNC(g)).{v == 9} + NODES(PRED(@FUNC(g),{v == 9}))",
        "9\n2\n",
        (
            "goals 4 inputs 2\ninput 1 returned 9\ninput 2 returned 0\ngoal 1 covered 1 n0@p.c:1 . {v == 9}\n"
            "goal 2 covered 1 n1@p.c:1 . {v == 9}\ngoal 3 missed n0@p.c:1 . !{v == 9}\n"
            "goal 4 missed n1@p.c:1 . !{v == 9}\nsuite 1\ncovered 2 of 4\n"
        ),
        sources={"p.c": CALLS},
    ),
    unmeasured(
        "32,768 words of a split graph are too many",
        "cover PRED(PRED(PRED(PRED(PRED(PRED(ID,{x == 0}),{x == 1}),{x == 2}),{x == 3}),{x == 4}),{x == 5})",
        "9\n2\n",
        "error 71 TooManyGoals limit 10000",
        6,
        sources={"p.c": CALLS},
    ),
    unmeasured(
        "16,384 words of split nodes are too many",
        (
            "cover NODES(PRED(PRED(PRED(PRED(PRED(PRED(PRED(PRED(PRED(PRED(PRED(ID,{x == 0}),{x == "
            "1}),{x == 2}),{x == 3}),{x == 4}),{x == 5}),{x == 6}),{x == 7}),{x == 8}),{x == 9}),{x == 10}))"
        ),
        "9\n2\n",
        "error 71 TooManyGoals limit 10000",
        6,
        sources={"p.c": CALLS},
    ),
    unmeasured(
        "65 predicates of split graphs",
        (
            "cover "
            "NODES(PRED(ID,{0}))+NODES(PRED(ID,{1}))+NODES(PRED(ID,{2}))+NODES(PRED(ID,{3}))+NODES(PRED("
            "ID,{4}))+NODES(PRED(ID,{5}))+NODES(PRED(ID,{6}))+NODES(PRED(ID,{7}))+NODES(PRED(ID,{8}))+NO"
            "DES(PRED(ID,{9}))+NODES(PRED(ID,{10}))+NODES(PRED(ID,{11}))+NODES(PRED(ID,{12}))+NODES(PRED"
            "(ID,{13}))+NODES(PRED(ID,{14}))+NODES(PRED(ID,{15}))+NODES(PRED(ID,{16}))+NODES(PRED(ID,{17"
            "}))+NODES(PRED(ID,{18}))+NODES(PRED(ID,{19}))+NODES(PRED(ID,{20}))+NODES(PRED(ID,{21}))+NOD"
            "ES(PRED(ID,{22}))+NODES(PRED(ID,{23}))+NODES(PRED(ID,{24}))+NODES(PRED(ID,{25}))+NODES(PRED"
            "(ID,{26}))+NODES(PRED(ID,{27}))+NODES(PRED(ID,{28}))+NODES(PRED(ID,{29}))+NODES(PRED(ID,{30"
            "}))+NODES(PRED(ID,{31}))+NODES(PRED(ID,{32}))+NODES(PRED(ID,{33}))+NODES(PRED(ID,{34}))+NOD"
            "ES(PRED(ID,{35}))+NODES(PRED(ID,{36}))+NODES(PRED(ID,{37}))+NODES(PRED(ID,{38}))+NODES(PRED"
            "(ID,{39}))+NODES(PRED(ID,{40}))+NODES(PRED(ID,{41}))+NODES(PRED(ID,{42}))+NODES(PRED(ID,{43"
            "}))+NODES(PRED(ID,{44}))+NODES(PRED(ID,{45}))+NODES(PRED(ID,{46}))+NODES(PRED(ID,{47}))+NOD"
            "ES(PRED(ID,{48}))+NODES(PRED(ID,{49}))+NODES(PRED(ID,{50}))+NODES(PRED(ID,{51}))+NODES(PRED"
            "(ID,{52}))+NODES(PRED(ID,{53}))+NODES(PRED(ID,{54}))+NODES(PRED(ID,{55}))+NODES(PRED(ID,{56"
            "}))+NODES(PRED(ID,{57}))+NODES(PRED(ID,{58}))+NODES(PRED(ID,{59}))+NODES(PRED(ID,{60}))+NOD"
            "ES(PRED(ID,{61}))+NODES(PRED(ID,{62}))+NODES(PRED(ID,{63}))+NODES(PRED(ID,{64}))"
        ),
        "9\n2\n",
        "error 67 TooManyPredicates limit 64",
        6,
        sources={"p.c": CALLS},
    ),
    unmeasured(
        "a predicate of a split graph that is no expression",
        "cover PRED(ID,{x +})",
        "9\n2\n",
        "error 65 PredicateSyntax query",
        4,
        sources={"p.c": CALLS},
    ),
    unmeasured(
        "a predicate of a split graph that is typable nowhere",
        "cover PRED(ID,{zz == 1})",
        "9\n2\n",
        "error 66 PredicateNowhere query",
        4,
        sources={"p.c": CALLS},
    ),
    unmeasured(
        "202 letters of split graphs",
        (
            "cover "
            "PRED(ID,{x})+PRED(ID,{x})+PRED(ID,{x})+PRED(ID,{x})+PRED(ID,{x})+PRED(ID,{x})+PRED(ID,{x})+"
            "PRED(ID,{x})+PRED(ID,{x})+PRED(ID,{x})+PRED(ID,{x})+PRED(ID,{x})+PRED(ID,{x})+PRED(ID,{x})+"
            "PRED(ID,{x})+PRED(ID,{x})+PRED(ID,{x})+PRED(ID,{x})+PRED(ID,{x})+PRED(ID,{x})+PRED(ID,{x})+"
            "PRED(ID,{x})+PRED(ID,{x})+PRED(ID,{x})+PRED(ID,{x})+PRED(ID,{x})+PRED(ID,{x})+PRED(ID,{x})+"
            "PRED(ID,{x})+PRED(ID,{x})+PRED(ID,{x})+PRED(ID,{x})+PRED(ID,{x})+PRED(ID,{x})+PRED(ID,{x})+"
            "PRED(ID,{x})+PRED(ID,{x})+PRED(ID,{x})+PRED(ID,{x})+PRED(ID,{x})+PRED(ID,{x})+PRED(ID,{x})+"
            "PRED(ID,{x})+PRED(ID,{x})+PRED(ID,{x})+PRED(ID,{x})+PRED(ID,{x})+PRED(ID,{x})+PRED(ID,{x})+"
            "PRED(ID,{x})+PRED(ID,{x})+PRED(ID,{x})+PRED(ID,{x})+PRED(ID,{x})+PRED(ID,{x})+PRED(ID,{x})+"
            "PRED(ID,{x})+PRED(ID,{x})+PRED(ID,{x})+PRED(ID,{x})+PRED(ID,{x})+PRED(ID,{x})+PRED(ID,{x})+"
            "PRED(ID,{x})+PRED(ID,{x})+PRED(ID,{x})+PRED(ID,{x})+PRED(ID,{x})+PRED(ID,{x})+PRED(ID,{x})+"
            "PRED(ID,{x})+PRED(ID,{x})+PRED(ID,{x})+PRED(ID,{x})+PRED(ID,{x})+PRED(ID,{x})+PRED(ID,{x})+"
            "PRED(ID,{x})+PRED(ID,{x})+PRED(ID,{x})+PRED(ID,{x})+PRED(ID,{x})+PRED(ID,{x})+PRED(ID,{x})+"
            "PRED(ID,{x})+PRED(ID,{x})+PRED(ID,{x})+PRED(ID,{x})+PRED(ID,{x})+PRED(ID,{x})+PRED(ID,{x})+"
            "PRED(ID,{x})+PRED(ID,{x})+PRED(ID,{x})+PRED(ID,{x})+PRED(ID,{x})+PRED(ID,{x})+PRED(ID,{x})+"
            "PRED(ID,{x})+PRED(ID,{x})+PRED(ID,{x})"
        ),
        "9\n2\n",
        "error 63 TooLarge limit 200",
        6,
        sources={"p.c": CALLS},
    ),
]

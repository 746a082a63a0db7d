# qdouble.g: documents of qdouble from groups and 3-cocycles in GAP, and its reports as numbers of GAP.
#
#     Read("tools/gap/qdouble.g");
#
#     QDoubleDocument(G)            the document of a finite group of order to 60, with the trivial cocycle
#     QDoubleDocument(G, N, w)      with the 3-cocycle w, a function of three elements: its value is exp(2 pi i w(g,h,k) / N)
#     QDoubleModulus(G, N)          the least modulus for exponents modulo N, for the commands that ask for one; fail where there is none
#     QDoubleCocycles(G)            generators of H^3(G, U(1)), by HAP: a list of records with `order` (that of the class), `roots` (N), and
#                                   `exponent` (a function of three elements)
#     QDoubleDocuments(G)           the documents of these, in order
#     QDoubleReport(text)           a report as a record: group, classes, simples, S, T, and where they are printed fusion numbers and indicators.
#                                   In it simples and classes count from 1, elements from 0, and `twist` is the value of T
#     QDoubleReportOf(file)         the same of a file
#
# Elements are numbered from 0 as AsSSortedList gives them; the identity is then 0 in groups of permutations and pc groups, and need not be in others. A
# document is a string, for PrintTo. Whether w is a normalised
# 3-cocycle is asked by qdouble itself, which says where it is none. Values of a report are cyclotomics of GAP, with E(K) for the root x.
# For GAP 4.12 or later; QDoubleCocycles needs the package HAP.

# --- documents

QDoubleLines := function(numbers, width)
    local lines, at;
    lines := "";
    for at in [1, 1 + width .. Length(numbers) - width + 1] do
        Append(lines, JoinStringsWithSeparator(List(numbers{[at .. at + width - 1]}, String), " "));
        Append(lines, "\n");
    od;
    return lines;
end;

QDoubleElements := function(G)
    if not IsFinite(G) or Size(G) > 60 then
        Error("qdouble takes groups of order to 60");
    fi;
    return AsSSortedList(G);
end;

QDoubleDocument := function(G, rest...)
    local elements, n, table, text, roots, w, exponents;
    elements := QDoubleElements(G);
    n := Length(elements);
    table := ListX(elements, elements, {g, h} -> PositionSorted(elements, g * h) - 1);
    text := Concatenation("qdouble 1\norder ", String(n), "\ntable\n", QDoubleLines(table, n));
    if rest = [] then
        return Concatenation(text, "roots 1\nomega trivial\nend\n");
    fi;
    roots := rest[1];
    w := rest[2];
    if not roots in [1 .. 64] then
        Error("qdouble takes exponents modulo 1 to 64");
    fi;
    exponents := ListX(elements, elements, elements, {g, h, k} -> w(g, h, k) mod roots);
    return Concatenation(text, "roots ", String(roots), "\nomega dense\n", QDoubleLines(exponents, n), "end\n");
end;

# A modulus is a prime of this list over the order of the group that is 1 modulo the conductor, which is the least of these numbers that is a
# multiple of N times the exponent of the group.
QDoubleModulus := function(G, N)
    local conductor;
    conductor := First([4, 6, 8, 9, 12, 16, 18, 20, 24, 25, 27, 28, 30, 32, 36, 40, 42, 48, 49, 54, 60, 64, 72, 84, 96, 120],
        K -> K mod (N * Exponent(G)) = 0);
    if conductor = fail then
        return fail;
    fi;
    return First([5, 7, 13, 17, 61, 73, 97, 101, 109, 113, 127, 193, 197, 241, 337], q -> q > Size(G) and q mod conductor = 1);
end;

# --- H^3(G, U(1))

# The generators come from a free resolution R of the integers: with d for the matrix of its fourth boundary over trivial coefficients and
# P d Q = D in Smith form, row i of P over D_ii is a class of order D_ii. The bar resolution is carried into R by the contracting homotopy of R:
# f_0[] = e, f_n[g_1|..|g_n] = h(f_(n-1) d[g_1|..|g_n]). Symbols with an identity go to 0, so that what comes is normalised.

# A word of R as a list of pairs of a generator, negative for a minus sign, and the number of an element, with what cancels taken out.
QDoubleReduced := function(word)
    local counts, letter, key, reduced, sign;
    counts := NewDictionary([1, 1], true);
    reduced := [];
    for letter in word do
        key := [AbsInt(letter[1]), letter[2]];
        sign := LookupDictionary(counts, key);
        if sign = fail then
            sign := 0;
            Add(reduced, key);
        fi;
        AddDictionary(counts, key, sign + SignInt(letter[1]));
    od;
    return Concatenation(List(reduced, key -> ListWithIdenticalEntries(
        AbsInt(LookupDictionary(counts, key)), [SignInt(LookupDictionary(counts, key)) * key[1], key[2]])));
end;

QDoubleCocycles := function(G)
    local elements, n, R, number, times, minus, homotopy, words, one, two, d, smith, generators, i, order, class, values, index, word, exponent;
    if LoadPackage("hap", false) <> true then
        Error("QDoubleCocycles needs the package HAP");
    fi;
    elements := QDoubleElements(G);
    n := Length(elements);
    R := ValueGlobal("ResolutionFiniteGroup")(G, 4);
    number := List(elements, g -> Position(R!.elts, g));
    if fail in number then
        Error("HAP's resolution doesn't list all elements of the group");
    fi;
    times := {g, word} -> List(word, letter -> [letter[1], Position(R!.elts, g * R!.elts[letter[2]])]);
    minus := word -> List(word, letter -> [-letter[1], letter[2]]);
    homotopy := function(degree, word)
        local image, letter;
        image := [];
        for letter in QDoubleReduced(word) do
            if letter[1] > 0 then
                Append(image, R!.homotopy(degree, letter));
            else
                Append(image, minus(R!.homotopy(degree, [-letter[1], letter[2]])));
            fi;
        od;
        return QDoubleReduced(image);
    end;
    index := g -> PositionSorted(elements, g);
    one := List(elements, g -> homotopy(0, [[1, number[index(g)]], [-1, number[index(One(G))]]]));
    two := List(elements, g -> List(elements, h -> homotopy(1, Concatenation(
        times(g, one[index(h)]), minus(one[index(g * h)]), one[index(g)]))));
    d := NullMat(R!.dimension(3), R!.dimension(4));
    for i in [1 .. R!.dimension(4)] do
        for word in R!.boundary(4, i) do
            d[AbsInt(word[1])][i] := d[AbsInt(word[1])][i] + SignInt(word[1]);
        od;
    od;
    smith := SmithNormalFormIntegerMatTransforms(d);
    generators := [];
    for i in [1 .. smith.rank] do
        order := smith.normal[i][i];
        if order > 1 then
            class := smith.rowtrans[i];
            values := List([1 .. R!.dimension(2)], j -> List([1 .. n], g -> Sum(R!.homotopy(2, [j, g]),
                letter -> SignInt(letter[1]) * class[AbsInt(letter[1])])));
            exponent := (function(order, values)
                return function(g, h, k)
                    local word;
                    word := Concatenation(times(g, two[index(h)][index(k)]), minus(two[index(g * h)][index(k)]),
                        two[index(g)][index(h * k)], minus(two[index(g)][index(h)]));
                    return Sum(word, letter -> SignInt(letter[1]) * values[AbsInt(letter[1])][letter[2]]) mod order;
                end;
            end)(order, values);
            Add(generators, rec(order := order, roots := order, exponent := exponent));
        fi;
    od;
    return generators;
end;

QDoubleDocuments := G -> List(QDoubleCocycles(G), class -> QDoubleDocument(G, class.roots, class.exponent));

# --- reports

QDoubleValue := function(text, K)
    local value, term, sign, at, parts;
    value := 0;
    for term in SplitString(ReplacedString(ReplacedString(text, "-", " -"), "+", " "), " ") do
        if term <> "" then
            parts := SplitString(term, "z");
            value := value + Int(parts[1]) * (function() if Length(parts) = 2 then return E(K) ^ Int(parts[2]); else return 1; fi; end)();
        fi;
    od;
    return value;
end;

QDoubleReport := function(text)
    local lines, report, line, words, numbers, simple, value;
    lines := SplitString(text, "\n");
    if lines = [] then
        Error("the report is empty");
    elif StartsWith(lines[1], "refused ") then
        Error(Concatenation("qdouble refused the document: ", lines[1]));
    elif lines[Length(lines)] <> "end" then
        Error("the report is cut short: its last line is not 'end'");
    fi;
    report := rec(classes := [], simples := []);
    value := word -> QDoubleValue(word, report.conductor);
    for line in lines{[1 .. Length(lines) - 1]} do
        words := SplitString(line, " ");
        numbers := Filtered(List(words, Int), number -> number <> fail);
        if words[1] = "group" then
            report.order := numbers[1];
            report.identity := numbers[2];
            report.exponent := numbers[3];
        elif words[1] = "cocycle" then
            report.roots := numbers[1];
        elif words[1] = "class" then
            Add(report.classes, rec(representative := numbers[2], size := numbers[3], centraliser := numbers[4], rank := numbers[5]));
        elif words[1] = "conductor" then
            report.conductor := numbers[1];
        elif words[1] = "modulus" then
            report.modulus := numbers[1];
            report.root := numbers[2];
        elif words[1] = "simple" then
            Add(report.simples, rec(class := numbers[2] + 1, degree := numbers[3], dimension := numbers[4], twist := E(report.conductor) ^ numbers[5]));
        elif words[1] = "chi" then
            report.simples[numbers[1] + 1].values := List(words{[3 .. Length(words)]}, value);
        elif words[1] = "S" and words[2] = "over" then
            report.S := [];
        elif words[1] = "S" then
            Add(report.S, List(words{[3 .. Length(words)]}, word -> value(word) / report.order));
        elif words[1] = "N" then
            if not IsBound(report.fusion) then
                report.fusion := List(report.simples, i -> NullMat(Length(report.simples), Length(report.simples)));
            fi;
            report.fusion[numbers[1] + 1][numbers[2] + 1][numbers[3] + 1] := numbers[4];
        elif words[1] = "indicators" then
            report.indicators := [];
        elif words[1] = "nu" then
            Add(report.indicators, value(words[3]) / report.order ^ 2);
        elif words[1] <> "simples" then
            Error(Concatenation("this is no line of a report: ", line));
        fi;
    od;
    report.T := List(report.simples, simple -> simple.twist);
    return report;
end;

QDoubleReportOf := function(file)
    local text;
    text := StringFile(file);
    if text = fail then
        Error(Concatenation("there is no file ", file, " that can be read"));
    fi;
    return QDoubleReport(text);
end;

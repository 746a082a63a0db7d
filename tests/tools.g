# For tests/tools: documents of some groups by tools/gap/qdouble.g, and what GAP itself says of the reports on them.
#
#     gap -q -c 'task := "documents"; folder := "..";' tests/tools.g      writes NAME.txt and NAME.words into the folder
#     gap -q -c 'task := "reports"; folder := "..";' tests/tools.g        reads NAME.report of each, and compares
#
# Each comparison prints a line that begins with 'ok' or 'FAILED', and the last line is 'done'.

Read("tools/gap/qdouble.g");

# A4, S4, Q16, the Pauli group, F20, SL(2,3) and some smaller ones, by their numbers in the library of small groups.
groups := [["c5", 5, 1], ["s3", 6, 1], ["c2xc4", 8, 2], ["d4", 8, 3], ["q8", 8, 4], ["c2xc2xc2", 8, 5], ["d5", 10, 1], ["a4", 12, 3], ["dic3", 12, 1],
    ["q16", 16, 9], ["pauli", 16, 13], ["f20", 20, 3], ["s4", 24, 12], ["sl23", 24, 3]];

path := name -> Concatenation(folder, "/", name);

written := function(name, document, G, N)
    local modulus;
    modulus := QDoubleModulus(G, N);
    if modulus <> fail then
        PrintTo(path(Concatenation(name, ".txt")), document);
        PrintTo(path(Concatenation(name, ".words")), "data ", modulus, "\n");
    fi;
end;

# Untwisted, and with each generator of H^3(G, U(1)), where the package HAP is there.
documents := function()
    local entry, G, classes, i;
    for entry in groups do
        G := SmallGroup(entry[2], entry[3]);
        written(entry[1], QDoubleDocument(G), G, 1);
        if LoadPackage("hap", false) = true then
            classes := QDoubleCocycles(G);
            for i in [1 .. Length(classes)] do
                written(Concatenation(entry[1], "_twist_", String(i)), QDoubleDocument(G, classes[i].roots, classes[i].exponent), G, classes[i].roots);
            od;
        fi;
    od;
end;

# The irreducible characters of the centraliser of an element, each the list of its values at the elements in order.
characters := function(G, elements, a)
    local C, inside;
    C := Centralizer(G, a);
    inside := Filtered(elements, x -> x in C);
    return List(Irr(C), chi -> List(inside, x -> x ^ chi));
end;

# n S_ij of the untwisted double by ordinary characters: the sum over commuting g and h of the two classes, each value carried to the representative.
numerator := function(G, elements, i, j)
    local sum, g, h, a, b, value;
    value := function(simple, rep, at, x)
        local k, inside;
        k := RepresentativeAction(G, rep, at);
        inside := Filtered(elements, y -> y * rep = rep * y);
        return simple.values[PositionSorted(inside, k * x * k ^ -1)];
    end;
    a := elements[i.representative + 1];
    b := elements[j.representative + 1];
    sum := 0;
    for g in AsList(ConjugacyClass(G, a)) do
        for h in AsList(ConjugacyClass(G, b)) do
            if g * h = h * g then
                sum := sum + ComplexConjugate(value(i, a, g, h) * value(j, b, h, g));
            fi;
        od;
    od;
    return sum;
end;

ok := function(name, what, holds)
    if holds then
        Print("ok ", name, ": ", what, "\n");
    else
        Print("FAILED ", name, ": ", what, "\n");
    fi;
end;

untwisted := function(name, G, report)
    local elements, simple, c, class, rows;
    elements := AsSSortedList(G);
    ok(name, "as many classes", Length(report.classes) = NrConjugacyClasses(G));
    for simple in report.simples do
        simple.representative := report.classes[simple.class].representative;
    od;
    for c in [1 .. Length(report.classes)] do
        class := report.classes[c];
        rows := List(Filtered(report.simples, simple -> simple.class = c), simple -> simple.values);
        ok(name, Concatenation("the characters of class ", String(c - 1)), Set(rows) = Set(characters(G, elements, elements[class.representative + 1])));
    od;
    ok(name, "S by ordinary characters", ForAll(Set([1, 2, 3, Length(report.simples)]), i -> ForAll([1 .. Length(report.simples)],
        j -> numerator(G, elements, report.simples[i], report.simples[j]) = report.order * report.S[i][j])));
end;

# Of every report: S is unitary and symmetric, and (S T)^3 = S^2, with no further phase, since the central charge of a double is 0.
modular := function(name, report)
    local S, T, n;
    S := report.S;
    T := DiagonalMat(report.T);
    n := Length(S);
    ok(name, "S is symmetric and unitary", TransposedMat(S) = S and S * ComplexConjugate(S) = IdentityMat(n));
    ok(name, "(S T)^3 = S^2", (S * T) ^ 3 = S ^ 2);
end;

reports := function()
    local entry, i, name;
    for entry in groups do
        name := entry[1];
        if IsReadableFile(path(Concatenation(name, ".report"))) then
            untwisted(name, SmallGroup(entry[2], entry[3]), QDoubleReportOf(path(Concatenation(name, ".report"))));
        fi;
        for i in [1 .. 7] do
            name := Concatenation(entry[1], "_twist_", String(i));
            if IsReadableFile(path(Concatenation(name, ".report"))) then
                modular(name, QDoubleReportOf(path(Concatenation(name, ".report"))));
            fi;
        od;
    od;
end;

# What is no report and no group that fits is refused with a message that names what is wrong.
refusals := function()
    local refused;
    BreakOnError := false;
    refused := function(what, call)
        ok("refusals", what, CALL_WITH_CATCH(call, [])[1] = false);
    end;
    refused("a group of order 61", {} -> QDoubleDocument(CyclicGroup(61)));
    refused("65 roots", {} -> QDoubleDocument(CyclicGroup(2), 65, {g, h, k} -> 0));
    refused("a refusal", {} -> QDoubleReport("refused 2 usage\n"));
    refused("a report that is cut short", {} -> QDoubleReport("group order 1 identity 0 exponent 1\n"));
    refused("a line that is none", {} -> QDoubleReport("group order 1 identity 0 exponent 1\nnumber 1\nend\n"));
    refused("a file that isn't there", {} -> QDoubleReportOf("no such file"));
end;

if task = "documents" then documents(); else reports(); refusals(); fi;
Print("done\n");
QUIT_GAP(0);

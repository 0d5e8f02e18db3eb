# Writes call_graph.hrs: awk -f examples/call_graph.awk >examples/call_graph.hrs
BEGIN {
    procedures = 150
    print "/* A program of 150 procedures that call one another, as a pushdown system: what stands in `k` is the stack of"
    print "   returns. Procedure i returns, or calls the procedures 2i + 1 and 2i + 2, counted modulo 150, one after the other:"
    print ""
    print "       let rec p0 () = if * then () else (p1 (); p2 ())"
    print "       and p1 () = if * then () else (p3 (); p4 ())"
    print "       .."
    print "       and p9 () = lock (); work (); unlock ()"
    print "       .."
    print ""
    print "   Every tenth one takes the lock, which must be free, works, and gives it back. Made by call_graph.awk. */"
    print "%BEGING"
    print "Main -> P0 end."
    for (i = 0; i < procedures; i++) {
        if (i % 10 == 9)
            body = "lock (Work (unlock k))"
        else
            body = "br k (P" (2 * i + 1) % procedures " (P" (2 * i + 2) % procedures " k))"
        print "P" i " k -> " body "."
    }
    print "Work k -> br k (work (Work k))."
    print "%ENDG"
    print "%BEGINA"
    print "free br -> free free."
    print "free lock -> held."
    print "free end -> ."
    print "held br -> held held."
    print "held work -> held."
    print "held unlock -> free."
    print "%ENDA"
}

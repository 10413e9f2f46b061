"""Parts of small texts at which two rules meet, a part a line, in which words between angles stand for others."""
from reading.tables import MAX_TIME

STAND_FOR = {b"<FF>": b"\xff", b"<LF>": b"\n", b"<LAST>": b"%d" % MAX_TIME, b"<PAST>": b"%d" % (MAX_TIME + 1)}


def part(line):
    for word, other in STAND_FOR.items():
        line = line.replace(word, other)
    return line


def parts(lines):
    return [part(line) for line in lines.strip(b"\n").split(b"\n")]


# What stands behind the word of a time unit.
SCALES = rb"""
1ns/1ns
1 ns / 1 ns
100s/1fs
1ns
1000ns/1ns
1ns/1nsx
1/*c*/ns//d<LF>/(*e*)1 s
1ns//*c*/1ns
1ns/1ns(*)
2ns/1ns
1NS/1ns
10us/10us`timescale 10 us/1ns
1ns/1ns`timescale 1ps/1ns
1<FF>ns/1ns
1ns/1ns module m; `timescale 1ns/1ns endmodule
1ns/1ns module m; `timescale 1ps/1ns endmodule
"""

# Items of a module with an input a and an output y.
BODIES = rb"""
and
and /*
and <FF>
and \
and g
and # 
and #<FF>
and #(1
and #(1,2,3) g(y,a);
and #1.5 g(y,a);
bufif1 #(1,2,3) g(y,a,a);
notif0 #(1,2,0) g(y,a,a);
bufif0 #(1,2,1000001) g(y,a,a);
notif1 #(1,2,3,4) g(y,a,a);
bufif1 #(1,2,) g(y,a,a);
bufif1 #(0,2,0) g(y,a,a);
and #1 (y);
and #1 (1'b0);
and #1 g(1'b0, y), g(y,a);
and #1 g(y, a), g(y, a);
and #1 (y, q[0]);
buf #1 (y, 1'b0, a);
buf #1 \$1 (y,a), (y,a);
buf #1 (y,a), \$1 (y,a);
buf #1 g$1(y,a), g(y,b,a);
buf #1 g(y,b,a), g$2(y,a);
buf #1 (y,b,a), (y,a);
buf #1 \$1$1 (y,a), (y,b,a);
buf #1 \$2 (y,a), (b,a), (b,a);
wire y;
wire y; wire y;
input a;
wire q; input q;
output wire
wire [1:0] w; not #1 (w, a);
wire [1:0] w; not #1 (w /*
wire [1:0] w; not #1 (w w
wire [1:0] w; not #1 (w[2], a);
wire [1:0] w; not #1 (w[0], a[0]);
wire [1:0] w; not #1 (w[65536], a);
wire [1:0] w; not #1 (w[x], a);
wire [1:0] w; wire \w[0] ;
wire \w[0] ; wire [1:0] w;
not #1 (y, \w[0] ); wire [1:0] w;
wire [1:0] w; not #1 (y, \w[1] );
wire [1:0] \w[0] ; wire [1:0] w;
wire [1:0] w; wire [1:0] \w[0] ;
wire [1:0] w; wire \w[2] , \w[01] ;
not #1 (y, q); wire q;
k u(q); wire q;
k u(q[0]);
k u(1'b0, 1'b1,);
k u;
k u(.a(), b);
k u(a, .b());
k #(1) u();
k u(), u();
and #1 u(y, a); k u();
k g(); and #1 g(y, a);
\and g(y, a);
k (a);
reg q;
assign y = a;
1 x;
1'b0;
(y);
wire \$end ;
wire \a.b , <FF>;
wire \a'b ;
wire \wire , wire;
wire $a;
wire _, _$, \_ ;
wire \a ;
wire (* c *) q (* d *) ; (* e
wire [1:0] [1:0] q;
wire [0:0] q; not #1 (q, a);
wire [0:0] q; not #1 (q[0], a);
wire [1] q;
wire [-1:0] q;
wire [1:1'b0] q;
buf #1 (y);
buf #1 ();
bufif1 #1 (y,a);
xor #1 (y,a,);
endmodule
endmodule;
module k;
xor #(2)(y,a)
xor #(2,)(y,a);
not #1 (a, y);
not #1 (y, a) (y, a);
;
output y;
k u(1'b0[0]);
"""

# What stands behind the word of a module.
HEADERS = rb"""
m
m()
m(a)
m(a);
m(a,a);
m(a,);
m(,a);
m(a, input b);
m(input a, b, output wire c, d);
m(input a, a);
m(); input a;
m; input a;
m; output wire a;
m(input a); output b;
m(input a); input a;
m(input a); wire a;
m(input wire a); wire a;
m(input tri a, b); wand b;
m(input [1:0] a); wire a;
m(input [1:0] a); wire [0:1] a;
m(input [1:0] a); wire [1:0] a;
m(a); wire a;
m(a); wire [1:0] a; input a;
m(a); wand a; input wire a;
m(a); input b;
m(a); input a; input a;
m(a); not #1 (a, a); input a;
m(a); not #1 (a, a); wire a;
m(a); not #1 (a, a);
m(a); input \a.b ;
m(a); input a, \b ;
m(a, \a[0] ); input [1:0] a; input \a[0] ;
m(a, \a[0] ); input \a[0] ; input [1:0] a;
m(\a[0] , a); input [1:0] a;
m(input [1:0] a, \a[0] );
m(input \a[0] , input [1:0] a);
m(input wire [1:0] a, b, output c);
m(input [65536:0] a);
m(input [0:0] a); wire [0:0] a;
m(wire a);
m(inout a);
m(input reg a);
m(input [1:0]);
m(input a,);
m(a b);
m(input and);
m #(1) (a);
m(a) /*
m(.a(b));
m([1:0] a);
m(input output a);
"""

# Items of a top with an input a, an output y and a vector w, beside a module k with ports p and q or none.
TOPS = rb"""
k u();
k u(a);
k u(a,y);
k u(a,y,a);
k u(,y);
k u(.p(a));
k u(.p(a),.p());
k u(.o(a));
k u(.q(a),.o());
k u(w);
k u(.p(w[0]), .q(y));
k u(1'b0, y);
k u(a, 1'b0);
k u(w, 1'b0);
k u(1'bx, w);
k u(.q(1'b0), .p(w));
o u();
o u(), v(); k w2(a,y,y,y);
k u(a,y); k v(y,y);
k u(n, n);
k u(y, a);
m u();
"""

# Ports of the module k.
INNER = rb"""
input p, output q
input [1:0] p, output q
input wand p, output wor q
input [0:0] p, output tri q
"""

# Numbers near limits, and lines that have one.
NUMBERS = rb"""
0
5
6
<LAST>
<PAST>
18446744073709551615
18446744073709551616
00000000000000000000000000000005
"""
NUMBERED = rb"""
stim a <N> 1
unstim a <N>
value y <N>
next a <N>
prev a <N>
seek a <N> 1
delay g <N> 1
delay g 1 <N>
delay g 1 1/<N>
gate b<N> bufif1 1 1/<N> y a a
gate c<N> bufif1 1 1/<N> y a
gate d<N> and 1 1/<N> y a
horizon <N>
stim a <N> 0
next a 4
vcd
"""

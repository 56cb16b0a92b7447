"""Rows of `rows.py` for `values`: what runs over numbers show and where they stop. Each source is woven under its policy first, by the program itself; what it has to show was computed by hand from the rules of docs/COMMANDS.md ("Values") and docs/SEMANTICS.md."""

MOST = "9223372036854775807"
LEAST = "(-9223372036854775807-1)"
# Each expression stands alone in a function of its own, so that none sees what another changed; `h` has the value 41, and `q` none.
LOCALS = "int s=4,x,y;int a[2]={10,20};int u[2];"

# an expression and its value
GIVES = r"""
7/2 3
-7/2 -3
7/-2 -3
-7/-2 3
7%2 1
-7%2 -1
7%-2 1
MIN%-1 0
1<<62 4611686018427387904
-1<<63 -9223372036854775808
0<<63 0
-2<<62 -9223372036854775808
1<<0 1
5>>63 0
-7>>1 -4
-1>>63 -1
~0 -1
~5 -6
-1&255 255
-8|3 -5
-1^1 -2
6^3 5
1|2^3&4 3
5&3==3 1
1<2<3 1
3>2>1 0
2==2==2 0
-1<1u 1
3>=4 0
!5 0
!!7 1
-!0 -1
0&&1/0 0
1||1/0 1
2&&3 1
1||0&&0 1
'a' 97
'\377' 255
'\0' 0
'\x41' 65
010 8
0x1F 31
1UL 1
M 9223372036854775807
-M-1 -9223372036854775808
3037000499*3037000499 9223372030926249001
2+3*4-1 13
10-3-2 5
100/10/5 2
2*3%4 2
1+2<<3 24
-2*-3 6
- -5 5
+-3 -3
(char)300 300
(unsigned)-1 -1
(void)3 3
x=5 5
x=y=3 3
s+=2 6
s-=1 3
s*=-4 -16
s/=3 1
s%=3 1
s<<=2 16
s>>=1 2
s&=6 4
s|=3 7
s^=5 1
s++ 4
++s 5
s-- 4
--s 3
a[1]=9 9
a[0]+a[1] 30
a[s-3] 20
u[0]=a[1] 20
a[s=1]+s 21
h 41
h+1 42
"""

# an expression, why it stops, and how many bytes behind its start
STOPS = r"""
MIN/-1 overflow 0
-MIN overflow 0
1<<63 overflow 0
3<<62 overflow 0
1<<64 overflow 0
0<<64 overflow 0
1<<-1 overflow 0
5>>64 overflow 0
5>>-1 overflow 0
M+1 overflow 0
-M-2 overflow 0
3037000500*3037000500 overflow 0
9223372036854775808 overflow 0
-9223372036854775808 overflow 1
-9223372036854775808/-1 overflow 1
s+=M overflow 0
s=M+1 overflow 2
s*=M overflow 0
s<<=62 overflow 0
1/0 division 0
1%0 division 0
2+3%0 division 2
1&&1/0 division 3
s/=0 division 0
s%=0 division 0
a[1/0] division 2
a[0]=1/0 division 5
q=1/0 division 2
a=1/0 division 2
a[2] index 0
a[-1] index 0
a[2]=1 index 0
a[9]=1/0 index 0
a[2]++ index 0
x unset 0
-x unset 1
x++ unset 0
x+=1/0 unset 0
u[1] unset 0
u[1]+=2 unset 0
*x unset 1
x[0] unset 0
+q unknown 1
q++ unknown 0
q+=1 unknown 0
1+a form 2
+a form 1
a+=1/0 form 0
a=1 form 0
h=1 form 0
h++ form 0
q=1 form 0
1=2 form 0
+"t" form 1
sizeof(int) form 0
sizeof s form 0
sizeof a form 7
*s form 0
&s+0 form 0
&x+0 unset 1
s[0] form 0
"""


def pairs(text):
    """The lines of a table: an expression, and what stands behind it."""
    for line in text.strip().split("\n"):
        expression, *words = line.rsplit(" ", 1 if text is GIVES else 2)
        yield expression.replace("MIN", LEAST).replace("M", MOST), words


def answers(*lines):
    return "capweave answers 1\n" + "".join(line + "\n" for line in lines) + "end\n"


class Woven(str):
    """The woven text of this source under the row's policy, as the program writes it."""


PLAIN = "format = 1\n"
EMPTY = answers()
M = "int main(void){"


def row(name, source, given, *wanted, policy=PLAIN, status=None):
    status = (0 if wanted[-1] == "ended" else 1) if status is None else status
    return ("values: " + name, "values p t answers", {"p": policy, "t": Woven(source), "answers": given}, status, "".join(line + "\n" for line in wanted), "")


def refused(name, source, given, note, policy=PLAIN, status=9):
    return ("values: " + name, "values p t answers", {"p": policy, "t": Woven(source), "answers": given}, status, "", note + "\n")


def of_expressions():
    """One program with a function for each expression that has a value."""
    given = list(pairs(GIVES))
    functions = "".join("int f%d(void){%sput(%s,0);return 0;}\n" % (number, LOCALS, expression) for number, (expression, _) in enumerate(given))
    calls = "".join("f%d();" % number for number in range(len(given)))
    return row("what expressions give", functions + M + calls + "return 0;}", answers("name h 41", *["call 0"] * len(given)),
               *["call put(%s,0) = 0" % words[0] for _, words in given], "tries 0", "ended")


def of_stops():
    """A program for each expression that stops."""
    head = "int main(int p){" + LOCALS + "put("
    for expression, (word, offset) in pairs(STOPS):
        yield row(expression.replace(MOST, "M") + " stops", head + expression + ",0);return 0;}", answers("name h 41", "call 0"), "tries 0", "stop %s 1:%d" % (word, len(head) + int(offset) + 1))


SPLIT = """format = 1
split = ["f"]
[[at]]
label = "a"
never = ["amb"]
[[at]]
label = "b"
must = ["amb"]
"""
CALLED = "int f(int x){a:;return x+1;}\nint main(void){int y;y=f(1);b:;put(y);return 0;}\n"
ONCE = "int main(void){get(1);a:;put(2);return 0;}"
NEVER = 'format = 1\nrefusable = ["enter"]\non_refusal = "stop"\n[[at]]\nlabel = "a"\nnever = ["amb"]\n'
DEEP = "int f(int n){int r;if(n<1)return 0;r=f(n-1);return r+1;}"

ROWS = [
    of_expressions(),
    *of_stops(),
    # calls in processes of their own, tries and what is answered to them
    row("a split call's result is taken over", CALLED, answers("call 7"), "call put(2) = 7", "tries 2", "ended", policy=SPLIT),
    row("a split call reads the file's values, and its calls count", "int k=5;int f(int x){a:;put(k);return x+k;}\nint main(void){int y;y=f(1);b:;put(y,k);return 0;}\n", answers("call 1", "call 2"),
        "call put(5) = 1", "call put(6,5) = 2", "tries 2", "ended", policy=SPLIT),
    row("a try is granted where no answer is left", ONCE, answers("call 1", "call 2"), "call get(1) = 1", "call put(2) = 2", "tries 1", "ended", policy=NEVER),
    row("a try is granted", ONCE, answers("try grant", "try refuse", "call 1", "call 2"), "call get(1) = 1", "call put(2) = 2", "tries 1", "ended", policy=NEVER),
    row("a refusal ends the run", ONCE, answers("try refuse", "call 1", "call 2"), "call get(1) = 1", "tries 1", "stop refused 1", policy=NEVER),
    row("a try with one answer takes none", ONCE, answers("try refuse", "call 1", "call 2"), "call get(1) = 1", "call put(2) = 2", "tries 1", "ended",
        policy=NEVER.replace('refusable = ["enter"]\non_refusal = "stop"\n', "")),
    # opens and closes
    row("an open and a close", "int fd;" + M + "fd=open_it(1);if(fd<0)put(1);close(fd);fd=open_it(2);put(fd);}", answers("call 4", "call 0", "call -1", "call 0"),
        "call open_it(1) = 4", "call close(4) = 0", "call open_it(2) = -1", "call put(-1) = 0", "tries 0", "ended", policy=PLAIN + '[[descriptor]]\nname = "fd"\n'),
    # arguments that are no numbers
    row("arguments as they are written", "int t[2];" + M + 'put("s\\n" "t",&t,t,stderr,t[0]);}', answers("call 1"), 'call put("s\\n" "t",&t,t,stderr,0) = 1', "tries 0", "ended"),
    row("a value that is handed in", M + "put(1+x);}", answers("name x -41", "call 1"), "call put(-40) = 1", "tries 0", "ended"),
    row("parameters of main", "int main(int argc,char **argv){put(argc);return argv;}", answers("name argc 3", "call 1"), "call put(3) = 1", "tries 0", "stop unset 1:49"),
    row("an element of argv", "int main(int argc,char **argv){put(argv[1]);}", answers("name argv 3", "call 1"), "tries 0", "stop form 1:36"),
    # answers that end early
    row("no answer is left", M + "put(1);put(2);}", answers("call 5"), "call put(1) = 5", "tries 0", "stop answers 1:23"),
    row("arguments come before the answer", M + "put(1/0);}", EMPTY, "tries 0", "stop division 1:20"),
    row("answers that nobody takes", M + "put(1);}", answers("name z 1", "try grant", "call 5", "call 6"), "call put(1) = 5", "tries 0", "ended"),
    # file scope
    row("file scope", "int a=2;int b=a+1;int c[3]={b,a};int d;" + M + "put(a,b,c[0],c[1],c[2],d);}", answers("call 1"), "call put(2,3,3,2,0,0) = 1", "tries 0", "ended"),
    row("file scope before its turn", "int a=b;int b=1;" + M + "}", EMPTY, "tries 0", "stop unset 1:7"),
    row("calls at file scope", "int a=get(1);int b=a/0;" + M + "}", answers("call 3"), "call get(1) = 3", "tries 0", "stop division 1:20"),
    # arrays
    row("the largest array", "int c[65536];" + M + "c[65535]=4;put(c[65535]);}", answers("call 1"), "call put(4) = 1", "tries 0", "ended"),
    row("an array of one element more", "int c[65537];" + M + "}", EMPTY, "tries 0", "stop form 1:7"),
    row("a local array of one element more", M + "int c[65537];}", EMPTY, "tries 0", "stop form 1:22"),
    row("an array of fewer than none", "int n=3;" + M + "int c[n-4];}", EMPTY, "tries 0", "stop form 1:30"),
    row("an array of none", M + "int c[0];put(c[0]);}", answers("call 1"), "tries 0", "stop index 1:29"),
    row("an array without size and list", "int c[];" + M + "put(c[0]);}", answers("call 1"), "tries 0", "stop index 1:28"),
    row("a size by the list", "int c[]={7,8};" + M + "put(c[1]);put(c[2]);}", answers("call 1", "call 2"), "call put(8) = 1", "tries 0", "stop index 1:44"),
    row("a list past its array", "int c[1]={7,1/0};" + M + "}", EMPTY, "tries 0", "stop form 1:13"),
    row("a list of a plain name", M + "int x={1,2};}", EMPTY, "tries 0", "stop form 1:25"),
    row("elements past a local list", M + "int c[3]={1};put(c[0],c[2]);}", answers("call 1"), "call put(1,0) = 1", "tries 0", "ended"),
    row("an array set to what is no list", 'char c[2]="a";' + M + "}", EMPTY, "tries 0", "stop form 1:11"),
    row("an array above its declaration", M + "int i=0;while(i<2){put(i);if(i)put(c[0]);i++;}{int c[1]={3};put(c[0]);}}", answers("call 0", "call 0", "call 0", "call 0"),
        "call put(0) = 0", "call put(1) = 0", "tries 0", "stop index 1:51"),
    row("an array made anew at each pass", M + "int i=0;while(i<2){int c[2];if(i==0)c[0]=1;put(c[0]);i++;}}", answers("call 0", "call 0"), "call put(1) = 0", "tries 0", "stop unset 1:63"),
    row("an index is taken once", "int c[3];" + M + "int i=0;c[i++]+=1;put(c[0],c[1],i);}", answers("call 0"), "call put(1,0,1) = 0", "tries 0", "ended"),
    # functions
    row("a result that wasn't returned", "int f(int x){if(x)return 1;}" + M + "int y;y=f(1);y=f(0);}", EMPTY, "tries 0", "stop form 1:59"),
    row("a result that nobody takes", "int f(void){}" + M + "f();put(1);}", answers("call 1"), "call put(1) = 1", "tries 0", "ended"),
    row("recursion", DEEP + M + "int y;y=f(90000);put(y);}", answers("call 0"), "call put(90000) = 0", "tries 0", "ended"),
    row("recursion until the steps are spent", DEEP + M + "int y;y=f(9000000);put(y);}", answers("call 0"), "tries 0", "stop steps"),
    row("a loop without end", M + "while(1);}", EMPTY, "tries 0", "stop steps"),
    row("declared again", M + "int i;i=0;while(i<2){int x;if(i==0)x=1;put(x);i++;}}", answers("call 0", "call 0"), "call put(1) = 0", "tries 0", "stop unset 1:59"),
    row("loops", M + "int i;for(i=0;i<3;i++){if(i==1)continue;put(i);}do{i--;}while(i>0);put(i);while(1){break;}}", answers("call 0", "call 0", "call 0"),
        "call put(0) = 0", "call put(2) = 0", "call put(0) = 0", "tries 0", "ended"),
    # what isn't run
    refused("a name twice, in an inner block", M + "int x;{int x;}return 0;}", EMPTY, "woven: source 1:27: value form"),
    refused("a parameter declared again", "int f(int x){int x;return 0;}" + M + "return 0;}", EMPTY, "woven: source 1:18: value form"),
    refused("a name of file scope", M + "int k;return 0;}int k;", EMPTY, "woven: source 1:20: value form"),
    refused("a name of file scope declared `extern`", "int k;" + M + "extern int k;return 0;}", EMPTY, "woven: source 1:33: value form"),
    refused("a `static` name", M + "int a;static int k,a;return 0;}", EMPTY, "woven: source 1:33: value form"),
    refused("answers before names", M + "int x;{int x;}return 0;}", answers("call x"), "answers: line 2"),
    # answers, line by line
    *[refused("answers: " + name, M + "}", text, "answers: line %d" % line) for name, text, line in (
        ("an empty text", "", 1),
        ("another head", "capweave answers 2\nend\n", 1),
        ("a head with a blank", "capweave answers 1 \nend\n", 1),
        ("no end", "capweave answers 1\n", 2),
        ("an end without its LF", "capweave answers 1\nend", 2),
        ("a line behind the end", "capweave answers 1\nend\n\n", 3),
        ("names that don't ascend", answers("name b 1", "name a 1"), 3),
        ("a name twice", answers("name a 1", "name a 1"), 3),
        ("what is no name", answers("name 1a 1"), 2),
        ("a name without value", answers("name a"), 2),
        ("two blanks", answers("name a  1"), 2),
        ("-0", answers("call -0"), 2),
        ("+1", answers("call +1"), 2),
        ("a leading zero", answers("call 07"), 2),
        ("a leading zero behind a sign", answers("call -07"), 2),
        ("a sign alone", answers("call -"), 2),
        ("2^63", answers("call 9223372036854775808"), 2),
        ("-2^63-1", answers("call -9223372036854775809"), 2),
        ("another word for a try", answers("try on"), 2),
        ("a name behind a try", answers("try grant", "name a 1"), 3),
        ("a try behind a call", answers("call 1", "try grant"), 3),
        ("a CR", answers("call 1\r"), 2),
    )],
    row("the greatest and the least number", M + "put(x,y);}", answers("name x 9223372036854775807", "name y -9223372036854775808", "call -9223372036854775808"),
        "call put(9223372036854775807,-9223372036854775808) = -9223372036854775808", "tries 0", "ended"),
    row("names by their bytes", M + "put(A,Z,_,a);}", answers("name A 1", "name Z 2", "name _ 3", "name a 4", "call 0"), "call put(1,2,3,4) = 0", "tries 0", "ended"),
]

#!/usr/bin/env python3
"""Nests each construct of the language to the greatest depth of 256 nodes, and one node deeper, and checks the sources
with a small stack.

    python3 nested.py FOLDER --run PROGRAM [--stack KIBIBYTES]

`PROGRAM check` is run on each with a stack of 4,096 KiB, or of so many. A line tells what answers otherwise than it
has to: the source as it stands in the table below at the depth 256, and `syntax TooDeep` for one more."""
import os
import resource
import subprocess
import sys

# How often, the answer, and the pieces of a source between signs #, of which the second, the fourth and so on stand so
# many times.
SOURCES = """\
252 ok:int x;int main(void){#(#x#)#;}
252 ok:int x;int main(void){#- #x;}
252 ok:int x;int main(void){#!#x;}
252 ok:int x;int main(void){#~#x;}
252 type Unknown:int main(void){#+ #x;}
126 ok:int x;int main(void){#*&#x;}
252 ok:int x;int main(void){#sizeof #x;}
252 ok:int x;int main(void){#(int)#x;}
252 ok:int main(void){#1+#1;}
252 ok:int x;int main(void){x#+1#;}
252 ok:int x;int main(void){x#%1#;}
252 ok:int x;int main(void){x#<<1#;}
252 ok:int main(void){#1<#1;}
252 ok:int main(void){#1==#1;}
252 ok:int main(void){#1&&#1;}
252 ok:int main(void){#1||#1;}
252 ok:int main(void){#1^#1;}
252 ok:int main(void){#1,#1;}
252 ok:int x;int main(void){#x=#1;}
252 ok:int x;int main(void){#x+=#1;}
252 ok:int main(void){#1?1:#1;}
252 ok:int main(void){#1?#1#:1#;}
252 ok:int f(int a){return a;}int main(void){#f(#1#)#;}
252 ok:int f(int a,int b){return a;}int main(void){#f(1,#1#)#;}
252 ok:int a[1];int main(void){#a[#0#]#;}
126 ok:int a[1];int main(void){#0[a+#0#]#;}
252 ok:struct s{struct s*n;}*p;int main(void){p#->n#;}
251 type Member:struct s{struct s*n;}*p;int main(void){p#->n#.n;}
126 ok:struct s{struct s*n;}*p;int main(void){p#[0].n#;}
252 ok:int x;int main(void){#{#x;#}#}
252 ok:int main(void){#{int y;#y;#}#}
251 ok:int main(void){#{struct s{int a;}y;#y.a;#}#}
252 type Unknown:int main(void){#{int y;#x;#}#}
252 ok:int x;int main(void){#if(1)#x;}
252 ok:int x;int main(void){#if(1);else #x;}
252 ok:int main(void){#while(1)#1;}
253 ok:int main(void){#while(1)#break;}
253 type Jump:int main(void){#if(1)#break;}
252 ok:int main(void){#do #1;#while(1);#}
251 ok:int main(void){#for(int i=0;i<1;)#i++;}
254 ok:int a#[1]#=#{#1#}#;int main(void){}
254 type Unknown:int a#[1]#=#{#x#}#;int main(void){}
252 ok:int main(void){int a#[1]#=#{#1#}#;}
255 ok:#struct{#int x;#}y;#int main(void){}
255 type Twice:#struct{#int x;int x;#}y;#int main(void){}
252 ok:#struct{#int y;#}y;#int main(void){y#.y#;}
255 ok:int #*#p;int main(void){}
252 ok:int #*#p;int main(void){#*#p;}
255 ok:int #*#p;int main(void){p=p;}
255 ok:int #*#p;int #*#f(int #*#q){return q;}int main(void){f(p);}
251 type Operand:int #*#p;int main(void){*#*#p;}
254 ok:int a#[1]#;int main(void){}
252 ok:int a#[1]#;int main(void){a#[0]#;}
255 ok:int f(int #*#p);int main(void){}
254 ok:int f(int a#[1]#);int main(void){}
252 ok:int main(void){(int #*#)0;}
252 ok:int main(void){sizeof(int #*#);}
251 ok:int main(void){sizeof(int#[1]#);}
126 ok:int x;int*p=#&*#&x;int main(void){}
253 ok:int a[#+ #1];int main(void){}
253 ok:int a[#(#1#)#];int main(void){}
126 ok:int a[#sizeof(char[#1#])#];int main(void){}
84 ok:int a[#sizeof(struct{char b[#1#];})#];int main(void){}
"""


def nested(pieces, count):
    """The pieces, every second one so many times."""
    return "".join(piece * (count if i % 2 else 1) for i, piece in enumerate(pieces.split("#")))


def answer(program, file, stack):
    """What the program says of a file, or how it ended."""

    def limit():
        resource.setrlimit(resource.RLIMIT_STACK, (stack * 1024, stack * 1024))

    ran = subprocess.run([program, "check", file], preexec_fn=limit, stdout=subprocess.PIPE, stderr=subprocess.STDOUT, text=True)
    if ran.returncode < 0:
        return f"signal {-ran.returncode}"
    told = ran.stdout.strip()
    return told.split(": ")[-1]


def main(words):
    folder, program, stack = words[0], None, 4096
    words = words[1:]
    while words:
        word = words.pop(0)
        if word == "--run":
            program = os.path.abspath(words.pop(0))
        elif word == "--stack":
            stack = int(words.pop(0))
    os.makedirs(folder, exist_ok=True)
    tried = wrong = 0
    for row in SOURCES.splitlines():
        head, pieces = row.split(":", 1)
        count, wanted = head.split(" ", 1)
        deeper = "syntax TooDeep"
        for times, due in ((int(count), wanted), (int(count) + 1, deeper)):
            file = f"{folder}/nested-{tried}.c"
            with open(file, "w") as out:
                out.write(nested(pieces, times))
            found = answer(program, file, stack)
            tried += 1
            if found != due:
                wrong += 1
                print(f"{found} and not {due}: {times} times {pieces}")
    print(f"{tried} sources, {wrong} answered otherwise, with a stack of {stack} KiB")


if __name__ == "__main__":
    main(sys.argv[1:])

"""Lists of inputs of a worker with what it says and starts, that `.ci/histories` plays.

The first 30 were written by hand. What stands in the others is said by a model of the whole worker that was written
apart from the program: 97 lists were drawn at random as inputs of the whole worker; of the other 143, inputs of the function
`run_tests`, most were drawn at random, and some written for kinds that chance draws seldom. A worker reads its suite before
it looks at another message, so between a call and its suite no list has a message that is answered at once.

A line is one list, its steps parted by `|`. A step is its inputs, parted by spaces, `=`, and what the worker does, parted
by `;`.

Inputs: a message ends in `@` with its channel where that is not 1. R, S with tests are `runtests` and `steal`, A
`runtests_all`, M `shutdown`; c and i with a letter are a CHANNEL_EXEC and an item with that one of the payloads below; s is
a STATUS, r a RECONFIGURE, x a CHANNEL_CLOSE, e a CHANNEL_CLOSE_ERROR with a text, n one without, l a CHANNEL_LAST_MESSAGE,
G a GATEWAY_TERMINATE. I is the bytes of a suite of that many tests `t0`, `t1`, .., Y bytes that are no TOML, Z a suite that
is too large, U that there is no suite; O that many bytes of output, D the end of the test (p, s or f with a code), Q the end
of the link.

What is said begins with its channel where that is not 1: W ready, C the collection, L a start with its log, D the end of a
test, B the tests given back, F finished, P that many bytes of the output, T the answer to a STATUS, V an integer, N a text, K
a list of channels, X a close, E a close with an error. `?` is a suite file to read, `!` a test to start, `.` that the worker
ends, and `#` that it refuses the message, and ends.
"""

HISTORIES = """
ca=W;?s.toml|I0=C|ca@3=3E:run_tests has been started|cv@5=5E:run_tests has been started|cc@7=7E:bad call|cd@9=|ia@9=9V5
cr=W;?s|I1=Ct0|cr@3=3E:run_tests has been started
cb=E:bad call|cs@3=3E:bad call|ct@5=5E:bad call|cu@7=7E:bad call|cv@9=9E:bad call|cc@11=11E:bad call
c2=E:bad call|co@3=3E:bad call|cw@5=5E:bad call|cn@7=7E:bad call|cz@9=9E:bad call|c1@11=11E:bad call|ck@13=13E:bad call
ce=E:x|cf@3=3E:fail|c4@5=5E:fail|cq@7=7E:fail
cg=E:unknown function|ch@3=3E:unknown function|c3@5=5E:unknown function
cx=E:source text is refused|ci@3=3E:source text is refused|cj@5=5E:source text is refused|cm@7=7E:source text is refused|cy@9=9E:source text is refused
x@3=|cd@3=|ia@3=|s@7=7T0,0;7X
cd=|cd=|cd@2=|ia=V5|s@9=9T1,1;9X|l=X|cd=|ia=|s@9=9T0,0;9X
cd=|ig=K21,23|s@5=5T3,1;5X|x@21=|x@23=|ig=K21,23|s@5=5T3,1;5X
ia@0=#
r=#
c0@2=#
c0=#
ca=W;?s.toml|I3=Ct0,t1,t2|i0=L0@2;!0
ca=W;?s.toml|I3=Ct0,t1,t2|i1=L0@2;!0
ca=W;?s.toml|I3=Ct0,t1,t2|i2=B
ca=W;?s.toml|I3=Ct0,t1,t2|i3=F;X
ca=W;?s.toml|I3=Ct0,t1,t2|i4=E:bad command
ca=W;?s.toml|I3=Ct0,t1,t2|i5=E:bad command
ca=W;?s.toml|I3=Ct0,t1,t2|i6=E:bad command
ca=W;?s.toml|I3=Ct0,t1,t2|i7=E:bad command
ca=W;?s.toml|I3=Ct0,t1,t2|i8=E:bad command
ca=W;?s.toml|I3=Ct0,t1,t2|i9=E:bad command
ca=W;?s.toml|I3=Ct0,t1,t2|iA=E:bad command
ca=W;?s.toml|I3=Ct0,t1,t2|iB=E:bad command
ca=W;?s.toml|I3=Ct0,t1,t2|iC=E:bad command
ca=W;?s.toml|I3=Ct0,t1,t2|iD=E:bad command
ca=W;?s.toml|I3=Ct0,t1,t2|iE=E:bad command
ca=W;?s.toml|I3=Ct0,t1,t2|iF=E:bad command
ca=W;?s.toml|R1,2,0=|I3=Ct0,t1,t2;L1@2;!1|O4096=2P4096|M=|Df1=2X;D1:f1;L2@4;!2|O4096=4P4096|O4096=4P4096|M=|O4095=|M=|l@4=|Dp=D2:p;L0@6;!0|ia@6=|Dp=6X;D0:p;F;X
ca=W;?s.toml|R0,3,2=|I4=Ct0,t1,t2,t3;L0@2;!0|Df-1=2X;D0:f-1;L3@4;!3|Dp=4X;D3:p|S=B|s@0=#
cp=W;?s.toml|A=|R2=|S2=|I3=Ct0,t1,t2;L0@2;!0|M=|Dp=2X;D0:p;E:bad command|l@2=|R1=
cp=W;?s.toml|I6=Ct0,t1,t2,t3,t4,t5|s@2=2T1,1;2X|R0,4,1,5=L0@2;!0|R2=|Df3=2X;D0:f3;L4@4;!4|l@5=|O0=|Df3=4X;D4:f3;L1@6;!1|e@6=|R3=|M=|O4096=|Ds=D1:s;L5@8;!5|Df1=8X;D5:f1;L2@10;!2
ca=W;?s.toml|S3=|R2=|I5=Ct0,t1,t2,t3,t4;B|R1,3=L2@2;!2|Ds=2X;D2:s;L1@4;!1|R0,4=|x@4=|O100=
ca=W;?s.toml|I6=Ct0,t1,t2,t3,t4,t5|R0,3=L0@2;!0|R1,0=|O4096=2P4096|Df-1=2X;D0:f-1;E:bad command|M=
ca=W;?s.toml|I6=Ct0,t1,t2,t3,t4,t5|R5,0=L5@2;!5|Df3=2X;D5:f3|M=L0@4;!0|R4,3,2,1=|M=|O4096=4P4096|Ds=4X;D0:s;F;X|cd@5=
ca=W;?s.toml|I4=Ct0,t1,t2,t3|M=F;X|R0,2=|M=|S=|R1=
ca=W;?s.toml|R0=|I1=Ct0|S0=B|G=.
cp=W;?s.toml|I2=Ct0,t1|cd@3=|M=F;X|R0=|M=
ca@3 U=3W;?s.toml;3E:suite cannot be read|cm@11=11E:source text is refused|l@3=|cg@3=
cp=W;?s.toml|I2=Ct0,t1|M=F;X|S0=|R1,0=|R0=|cp@11=11E:run_tests has been started|r=#
ca=W;?s.toml|I0=C|M=F;X|ch@9=9E:unknown function|S=|S0,1=|M=
ca=W;?s.toml|ig@2=|I6=Ct0,t1,t2,t3,t4,t5|R=|S=B|R2,5=L2@2;!2|R3,0,4,1=|M=|S0,2=B|Ds=2X;D2:s;L5@4;!5|Df-1=4X;D5:f-1;L3@6;!3|Df-1=6X;D3:f-1;L0@8;!0|l@8=|O4096=8P4096|Df3=D0:f3;L4@10;!4|O4096=10P4096|Df3=10X;D4:f3;L1@12;!1|M=|Df-1=12X;D1:f-1;F;X|R=|R1=|R=|G=.
cp=W;?s.toml|I2=Ct0,t1|cd@3=|cd@9=|e@2=|ih@2=|l@2=|cd@5=|G=.
cp=W;?s.toml|I2=Ct0,t1|R0=|R1=L0@2;!0|x@3=|O4096=2P4096|O0=|M=|ig@9=|O4095=2P4095|M=|M=|M=|M=|O1=2P1|M=|M=|O0=|x@2=|M=|M=|S=B|x@2=|M=|s@2=2T5,1;2X
ca=W;?s.toml|R=|I2=Ct0,t1|R0=|M=L0@2;!0|R1=|Df1=2X;D0:f1;F;X|M=|cp@5=5E:run_tests has been started|A=|R1,0=
ca=W;?s.toml|R2,0=|I6=Ct0,t1,t2,t3,t4,t5;L2@2;!2|R5,4,1=|O0=|O4096=2P4096
cp=W;?s.toml|I1=Ct0|s@7=7T1,1;7X|ca@13=13E:run_tests has been started|cb@5=5E:run_tests has been started|cd@5=|s@2=2T1,1;2X|cc@7=7E:bad call|e=X|ig@9=|ck@5=|e@2=
ca=W;?s.toml|I3=Ct0,t1,t2|l@4=|R0=|R2,1=L0@2;!0|O100=2P100|S2,2,1=|O100=2P100|Df3=2X;D0:f3;E:bad command|if=|R0,2=|M=|S1,0=|A=
ca=W;?s.toml|S=|I3=Ct0,t1,t2;B|R2,0=L2@2;!2|O4096=2P4096|Df-1=2X;D2:f-1|R1=L0@4;!0|Q=
cp=W;?s.toml|R3=|A=|I5=Ct0,t1,t2,t3,t4;E:bad command|S1,3,0=|s@2=2T0,0;2X|x@4=
ca=W;?s.toml|R1,0=|I0=C;E:bad command|R1,0=|s@2=2T0,0;2X|S1,0=|M=
ca=W;?s.toml|I0=C|M=F;X|M=|G=.
ca=W;?s.toml|I6=Ct0,t1,t2,t3,t4,t5|R0,4=L0@2;!0|R1,3,5=|R2=|A=|x@2=|S2,5=|Df-1=D0:f-1;E:bad command|A=|R=|M=|if=|R0,2,4=|A=|M=|R2=|M=
ca=W;?s.toml|S5,1=|I6=Ct0,t1,t2,t3,t4,t5;B|R2,5,1,4=L2@2;!2|R0,3=|Df-1=2X;D2:f-1;L5@4;!5|M=
ca=W;?s.toml|I0=C|R1=E:bad command|R=|M=|R0=|cd@3=|S0,1=|R=|M=
ca=W;?s.toml|I2=Ct0,t1|R1,0=L1@2;!1|O1=2P1|O0=|M=|S1,0=B|O4096=2P4096|O4096=2P4095|M=|O4096=|Dp=2X;D1:p;L0@4;!0|O100=4P100
ca@3=3W;?s.toml|A@3=|I3=3Ct0,t1,t2;3L0@2;!0|l@2=|O1=2P1|cq@9=9E:fail|l@5=|x@3=|Df-1=3X|R@3=
ca=W;?s.toml|I4=Ct0,t1,t2,t3|A=L0@2;!0|l@4=|l@2=|Df1=D0:f1;L1@4;!1|R=|M=|ia@9=|R2=|Df-1=4X;D1:f-1;E:bad command|S=
ca=W;?s.toml|I4=Ct0,t1,t2,t3|M=F;X|R0,3=|R2,0=|M=|A=
cp=W;?s.toml|R0=|Y=E:suite is not TOML|R=|G=.
ca@3=3W;?s.toml|R3@3=|Y=3E:suite is not TOML|ia@3=|R3,4,1@3=|S2,1@3=|R2,1@3=|S3@3=|S2,4@3=|S2,4@3=|ch@3=|R2@3=|ib@3=|M@3=|S@3=|cb@11=11E:run_tests has been started|R1,0,4@3=|M@3=
ca=W;?s.toml|I4=Ct0,t1,t2,t3|M=F;X|R2,3=|S=|cd@13=|S0=|A=
ca=W;?s.toml|I4=Ct0,t1,t2,t3|ih@2=|G=.
ca=W;?s.toml|I4=Ct0,t1,t2,t3|R3,1=L3@2;!3|Df1=2X;D3:f1|R0=L1@4;!1|R2=|Dp=4X;D1:p;L0@6;!0|M=|M=|l@6=|M=|l@6=|S=B|M=|O1=6P1|Dp=D0:p;L2@8;!2|Df3=8X;D2:f3;F;X|s=T0,0;X|S2=|cd@7=|S=|G=.
ca=W;?s.toml|I2=Ct0,t1|s@7=7T1,1;7X|l@2=|e@4=|ia@11=|x@3=|e@4=
ca=W;?s.toml|S0=|I6=Ct0,t1,t2,t3,t4,t5;B|R5=|R4,3=L5@2;!5|S3,4=B|R0=|S0=B0|l=|S3=|Df1=2X;D5:f1;X|A=|e@2=|M=
ca=W;?s.toml|I5=Ct0,t1,t2,t3,t4|R0=|R3,1,4,2=L0@2;!0|S1,4,2=B1,4,2|s@2=2T2,1;2X|S3,2=B|G=|R1,2=|Df3=.
ca=W;?s.toml|I6=Ct0,t1,t2,t3,t4,t5|s@7=7T1,1;7X|x=X|e@2=|e@5=
ca=W;?s.toml|S=|A=|S=|I3=Ct0,t1,t2;B;L0@2;B;!0|O4096=2P4096|Df1=2X;D0:f1;L1@4;!1|x@4=|x@4=|M=|S1,2=B|O100=|M=|ch@2=|M=|M=|ih@11=
ca=W;?s.toml|I6=Ct0,t1,t2,t3,t4,t5|S2,0,4=B|R4,0=L4@2;!4|O4096=2P4096|O1=2P1|R1,5,3=|O1=2P1|Dp=2X;D4:p;L0@4;!0|l@4=|O4095=4P4095|O1=4P1|O4096=4P4096|O0=|R5,4=|R2=|Ds=D0:s;E:bad command|l@5=
ca=W;?s.toml|I6=Ct0,t1,t2,t3,t4,t5|l=X|cd@7=|Q=.
ca=W;?s.toml|I4=Ct0,t1,t2,t3|R1,2,0,3=L1@2;!1|M=|S3,0=B0,3|Df-1=2X;D1:f-1;L2@4;!2|R3,0=|x@4=|M=|O100=|Dp=D2:p;F;X|R=|R2,0=|A=
ca@3=3W;?s.toml|I5=3Ct0,t1,t2,t3,t4|S@3=3B|R2,4,3,0@3=3L2@2;!2|R1,0@3=|M@3=|O4096=2P4096|M@3=|S3,0@3=|Df-1=2X;3D2:f-1;3E:bad command|A@3=|R1,0@3=|R4@3=
ca=W;?s.toml|S3,2=|R=|S1,3=|S=|R1,0,3=|S1,3=|I4=Ct0,t1,t2,t3;B;B;B;L1@2;B;!1|Df-1=2X;D1:f-1;L0@4;!0|R2=|O4096=4P4096|S2=B2|Df1=4X;D0:f1|R2=L3@6;!3|Df3=6X;D3:f3|ci@9=9E:source text is refused|M=L2@8;!2|Df3=8X;D2:f3;F;X|ib=|R1,1,0=
ca=W;?s.toml|I5=Ct0,t1,t2,t3,t4|R0=|R4,1,2,3=L0@2;!0|Dp=2X;D0:p;L4@4;!4|S0,3=B|l@4=|M=|l@4=|Dp=D4:p;L1@6;!1|S3,2=B|S3=B3|O4095=6P4095|O4096=6P4096|R0,1=|Df3=6X;D1:f3;E:bad command
ca@3 U=3W;?s.toml;3E:suite cannot be read|cm@2=|ig@2=|cc@9=9E:bad call|iz=#
ca=W;?s.toml|I6=Ct0,t1,t2,t3,t4,t5|cq@5=5E:fail|G=.
ca@3=3W;?s.toml|I3=3Ct0,t1,t2|R1,0,2@3=3L1@2;!1|Dp=2X;3D1:p;3L0@4;!0|M@3=|Ds=4X;3D0:s;3L2@6;!2|S@3=3B|M@3=
ca=W;?s.toml|I4=Ct0,t1,t2,t3|R1,0,2=L1@2;!1|Ds=2X;D1:s;L0@4;!0|Df-1=4X;D0:f-1|ca@2=|ci@13=13E:source text is refused|R3=L2@6;!2|x@6=|S=B|Dp=D2:p|M=L3@8;!3|O100=8P100|Df-1=8X;D3:f-1;F;X|M=|A=|l@8=
ca=W;?s.toml|ia@9=|I3=Ct0,t1,t2|s@3=3T2,1;3X|x=X|cc@2=
ca=W;?s.toml|ih@2=|I0=C|M=F;X|R1,0=|M=|id=|S0=|R1,0=
ca=W;?s.toml|I1=Ct0|R0=|S0=B|ic=E:bad command|R0=|M=|S0=
ca=W;?s.toml|S0=|I2=Ct0,t1;B|R=|R0,1=L0@2;!0|x@2=|Ds=D0:s|n=#
cp=W;?s.toml|I0=C|s@3=3T1,1;3X|ca@9=9E:run_tests has been started|ib@5=|l@4=|ib@9=|cj@7=7E:source text is refused|s=T2,1;X|l=X|s=T1,0;X|e@5=|l@4=
ca=W;?s.toml|I2=Ct0,t1|e@2=|s@7=7T1,1;7X|l@2=|cd@5=|ig@2=|Q=.
ca@2=|R1,2=|R=|R=|R3=|M=|A=|co@11=11E:bad call|s@2=2T1,0;2X|ca@7=7W;?s.toml|I4=7Ct0,t1,t2,t3|R1,2,0@7=7L1@2;!1|S0@7=7B0|R0,3@7=
ca=W;?s.toml|R=|I6=Ct0,t1,t2,t3,t4,t5|R4,5,1,2,0,3=L4@2;!4|O1=2P1|M=|O4096=2P4096|M=|x@2=
ca@3=3W;?s.toml|ih@11=|I0=3C|G=.
ca=W;?s.toml|I4=Ct0,t1,t2,t3|R0,2,3=L0@2;!0|cg@2=|R=|S3,2=B|x@2=|Df-1=D0:f-1;L2@4;!2|O0=|R1=|O100=4P100|O0=|R=|Df3=4X;D2:f3;L3@6;!3|x@6=|Df3=D3:f3|G=.
ca=W;?s.toml|I3=Ct0,t1,t2|R0,1,2=L0@2;!0|M=|O100=2P100|O1=2P1|S2=B2|Df1=2X;D0:f1;L1@4;!1|e@4=|O1=|R2=|O0=|O1=|O4096=|e@4=|O100=|s@0=#
ca=W;?s.toml|R=|A=|S=|Y=E:suite is not TOML|M=|Q=.
ca=W;?s.toml|Y=E:suite is not TOML|cd@5=|S0,1=|l@5=5X|M=|cc@7=7E:bad call|M=|S0,1=
ca@3=3W;?s.toml|Z=3E:suite is too large|Q=.
ca@3=3W;?s.toml|I3=3Ct0,t1,t2|co@3=|cd@7=|G=.
ca=W;?s.toml|I2=Ct0,t1|ck@3=3E:bad call|cn@13=13E:bad call|l=X|ih@9=|e@3=
ca=W;?s.toml|ib@3=|I0=C|M=F;X|R1,0=|R0,1,1=|R1=|M=|ie=|id=|ic=|cg@7=7E:unknown function|A=|S0,1=|S0=|R0,1=
ca@3=3W;?s.toml|R1,2@3=|I3=3Ct0,t1,t2;3L1@2;!1|R0@3=|O0=|O1=2P1|Df3=2X;3D1:f3;3L2@4;!2|Df-1=4X;3D2:f-1|G=.
ca@3=3W;?s.toml|I6=3Ct0,t1,t2,t3,t4,t5|R0,4,1@3=3L0@2;!0|O4096=2P4096|O4096=2P4096|O4095=|Ds=2X;3D0:s;3L4@4;!4|cj@3=|M@3=|ia@9=|R2,5,3@3=|O1=4P1|Df-1=4X;3D4:f-1;3L1@6;!1|M@3=|S2,3,5@3=3B2,5,3|R3,2,5@3=|M@3=|M@3=|Df3=6X;3D1:f3;3F;3X|S3@3=|S4,5,2@3=|ib@3=|if@3=
ca@3=3W;?s.toml|I2=3Ct0,t1|R1,0@3=3L1@2;!1|M@3=|M@3=|M@3=|M@3=|M@3=|Df-1=2X;3D1:f-1;3L0@4;!0|Df1=4X;3D0:f1;3F;3X|R0@3=|R0@3=|ch@9=9E:unknown function|R0,1@3=
ca@3=3W;?s.toml|I1=3Ct0|M@3=3F;3X|M@3=|R0@3=|R@3=|if@3=|cg@5=5E:unknown function|S0@3=
cp=W;?s.toml|R=|I4=Ct0,t1,t2,t3|R1,3,0,2=L1@2;!1|M=
ca=W;?s.toml|I5=Ct0,t1,t2,t3,t4|R1,0,2=L1@2;!1|x@2=|Df3=D1:f3;L0@4;!0|R1,0,4=|R3,4=|Dp=4X;D0:p;E:bad command|S3,0=|cl@2=|S4,0,3=|cp@9=9E:run_tests has been started|id=
ca@3=3W;?s.toml|I6=3Ct0,t1,t2,t3,t4,t5|R3,1,2,0,4,5@3=3L3@2;!3|ig@3=|Df-1=2X;3D3:f-1;3E:bad command|M@3=|S2@3=|M@3=|M@3=|R@3=|R@3=|e@5=|R5,1@3=
ca=W;?s.toml|I4=Ct0,t1,t2,t3|ia@2=|R2,3,1,0=L2@2;!2|S=B|O100=2P100|O0=|O100=2P100|Dp=2X;D2:p;L3@4;!3|Df1=4X;D3:f1;L1@6;!1|M=|Dp=6X;D1:p;L0@8;!0|Ds=8X;D0:s;F;X|A=|S1,3=|R1,3,2=|R1,3=|R=
ca=W;?s.toml|I0=C|M=F;X|M=|R0,1=|S=
ca=W;?s.toml|I0=C|s@2=2T1,1;2X|cq@11=11E:fail|A=|ce@2=|M=F;X|A=|A=|R1=
ca=W;?s.toml|S0,1=|I0=C;E:bad command|ib@9=|R0=|s=T1,0;X|S=
cp=W;?s.toml|I3=Ct0,t1,t2|ih@2=|if=E:bad command|R0=|R1=|S2=
ca=W;?s.toml|I5=Ct0,t1,t2,t3,t4|Q=.
ca=W;?s.toml|I4=Ct0,t1,t2,t3|cj@5=5E:source text is refused|cg@3=3E:unknown function|G=.
cp@3=3W;?s.toml|R@3=|I4=3Ct0,t1,t2,t3|R3,1,0@3=3L3@2;!3|Df-1=2X;3D3:f-1;3L1@4;!1|R2@3=|Df1=4X;3D1:f1;3L0@6;!0|Ds=6X;3D0:s|M@3=3L2@8;!2|Df1=8X;3D2:f1;3F;3X|R@3=
cp=W;?s.toml|I1=Ct0|R0=|M=L0@2;!0|O4096=2P4096|Df1=2X;D0:f1;F;X|A=
ca=W;?s.toml|I0=C|M=F;X|s@0=#
ca=W;?s.toml|I6=Ct0,t1,t2,t3,t4,t5|x@2=|e@5=|cf@3=3E:fail|l@5=|cd@11=|x@5=
cp=W;?s.toml|R5=|I6=Ct0,t1,t2,t3,t4,t5|e@3=|A=E:bad command|S=
ca@3=3W;?s.toml|I4=3Ct0,t1,t2,t3|cd@7=|s@3=3T2,2;3X|ia@2=|ch@11=11E:unknown function|G=.
cp=W;?s.toml|I5=Ct0,t1,t2,t3,t4|S=B|R2,3=L2@2;!2|Df3=2X;D2:f3|R4,0,1=L3@4;!3|S1=B1|O4095=4P4095|s=T2,1;X|S0=B0|Df-1=4X;D3:f-1|e@3=|R0,1=L4@6;!4|ic=|Dp=6X;D4:p;E:bad command|A=
cp=W;?s.toml|I6=Ct0,t1,t2,t3,t4,t5|ig@2=|R1,3,5=L1@2;!1|Df-1=2X;D1:f-1;L3@4;!3|Df3=4X;D3:f3|R4,2,0=L5@6;!5|Df3=6X;D5:f3;L4@8;!4|ia@5=
ca@3=3W;?s.toml|I5=3Ct0,t1,t2,t3,t4|ck@7=7E:bad call|R4,2,3,1,0@3=3L4@2;!4|Q=
ca=W;?s.toml|S0=|cd@3=|R=|ic=|S0=|I0=C;E:bad command|M=|Q=.
ca=W;?s.toml|I0=C|M=F;X|A=|A=|R1,0=|S0,1=|S0,1=
ca=W;?s.toml|I0=C|M=F;X|M=|ib=|S=|S=|R1,0=
ca=W;?s.toml|Y=E:suite is not TOML|M=|R=|ia=|R=|M=|ia=|s=T0,0;X|R=
ca=W;?s.toml|I4=Ct0,t1,t2,t3|M=F;X|ih@9=|R2,1=|M=
ca=W;?s.toml|R=|R0=|I2=Ct0,t1|R1=L0@2;!0|S=B|O4096=2P4096|Ds=2X;D0:s|l=X|R1=|S=|r=#
ca=W;?s.toml|I3=Ct0,t1,t2|R2=|R1=L2@2;!2|O4095=2P4095|O4096=2P4096|Df1=2X;D2:f1|S=B|R0=L1@4;!1|Df-1=4X;D1:f-1|M=L0@6;!0|M=|O4096=6P4096|M=|O4096=6P4096|Dp=6X;D0:p;F;X
ca=W;?s.toml|I6=Ct0,t1,t2,t3,t4,t5|R4,5,0,3,2,1=L4@2;!4|S4=B|Dp=2X;D4:p;L5@4;!5|Ds=4X;D5:s;L0@6;!0|M=|M=|S2,1=B2,1|O100=6P100|Df1=6X;D0:f1;L3@8;!3|O1=8P1|Df-1=8X;D3:f-1;F;X
ca=W;?s.toml|I2=Ct0,t1|R1=|S=B|S=B|S=B|M=L1@2;!1|Df1=2X;D1:f1;F;X
ca=W;?s.toml|R0,2=|I3=Ct0,t1,t2;L0@2;!0|R1=|Dp=2X;D0:p;L2@4;!2|Df1=4X;D2:f1|S=B|M=L1@6;!1|M=|O4095=6P4095|l=|O100=6P100|Ds=6X;D1:s;X
ca=W;?s.toml|I6=Ct0,t1,t2,t3,t4,t5|R4,0,1,5=L4@2;!4|O0=|M=|Df-1=2X;D4:f-1;L0@4;!0|R3=
ca=W;?s.toml|A=|S3,0=|S1=|ia=|S=|ia=|R0,1=|I6=Ct0,t1,t2,t3,t4,t5;L0@2;B;B;!0|Dp=2X;D0:p;E:bad command
ca=W;?s.toml|S0=|R0=|I1=Ct0;B|S0=B|M=L0@2;!0|Dp=2X;D0:p;F;X
ca=W;?s.toml|S0=|I1=Ct0;B|R0=|S=B|S=B|S=B|S=B|M=L0@2;!0|O4095=2P4095|O0=|M=|O4096=2P4096|Df-1=2X;D0:f-1;F;X
ca=W;?s.toml|I2=Ct0,t1|R0,1=L0@2;!0|Dp=2X;D0:p|R0=E:bad command|Q=.
ca=W;?s.toml|I3=Ct0,t1,t2|R1=|M=L1@2;!1|R0,2=|O4095=2P4095|Df1=2X;D1:f1;F;X|Q=.
ca=W;?s.toml|I2=Ct0,t1|R0,1=L0@2;!0|Ds=2X;D0:s|S=B|S=B|M=L1@4;!1|Ds=4X;D1:s;F;X
ca=W;?s.toml|I3=Ct0,t1,t2|R1,2=L1@2;!1|Dp=2X;D1:p|R0=L2@4;!2|S=B|Dp=4X;D2:p|M=L0@6;!0|S=B|Df-1=6X;D0:f-1;F;X|Q=.
ca=W;?s.toml|A=|R0,2=|A=|S1=|S2,0,1=|R3,0,3=|S2,0,1=|M=|I4=Ct0,t1,t2,t3;L0@2;!0|O0=|S=|O1=2P1|S3=|Df1=2X;D0:f1;E:bad command|Q=.
ca=W;?s.toml|S3,0=|R=|I4=Ct0,t1,t2,t3;B|R0,1,3=L0@2;!0|O4096=2P4096|O4095=2P4095|Dp=2X;D0:p;L1@4;!1|S=B|O4096=4P4096|R2=|M=|M=
ca=W;?s.toml|I2=Ct0,t1|R0=|R1=L0@2;!0|Dp=2X;D0:p|S=B|S=B|M=L1@4;!1|S=B|M=|O4096=4P4096|O100=4P100|S=B|S=B|O4096=4P3996|Df-1=4X;D1:f-1;F;X|Q=.
ca=W;?s.toml|A=|I4=Ct0,t1,t2,t3;L0@2;!0|Df-1=2X;D0:f-1;L1@4;!1|S3=B3|O100=4P100|Ds=4X;D1:s|R3=L2@6;!2|Q=
ca=W;?s.toml|I6=Ct0,t1,t2,t3,t4,t5|R3,4,5,2,1=L3@2;!3|Df1=2X;D3:f1;L4@4;!4|Ds=4X;D4:s;L5@6;!5|Df-1=6X;D5:f-1;L2@8;!2|O4095=8P4095|O4096=8P4096|R0=|M=|S0=B0|R0=|M=|O1=8P1|Dp=8X;D2:p;L1@10;!1|O4096=10P4096|Df1=10X;D1:f1;F;X
ca=W;?s.toml|R1=|M=|S0,1=|ia=|R0=|S1=|I2=Ct0,t1;L1@2;B;!1|Dp=2X;D1:p;E:bad command
ca=W;?s.toml|I6=Ct0,t1,t2,t3,t4,t5|R4,0,3,2,5=L4@2;!4|O4095=2P4095|O4095=2P4095|Dp=2X;D4:p;L0@4;!0|O0=|Dp=4X;D0:p;L3@6;!3|Ds=6X;D3:s;L2@8;!2|Df-1=8X;D2:f-1|R4,0=E:bad command
ca=W;?s.toml|S2,1=|I6=Ct0,t1,t2,t3,t4,t5;B|R5,1,0,4=L5@2;!5|R2,3=|Ds=2X;D5:s;L1@4;!1|O4096=4P4096|S3,2,4=B4,2,3|O4096=4P4096|R2,3=|S5,3,1=B|O0=|Df-1=4X;D1:f-1;L0@6;!0|O4096=6P4096|Df1=6X;D0:f1;L2@8;!2|Dp=8X;D2:p|ia=E:bad command
ca=W;?s.toml|I2=Ct0,t1|R0,1=L0@2;!0|O4096=2P4096|Ds=2X;D0:s|S=B|ia=E:bad command
ca=W;?s.toml|I4=Ct0,t1,t2,t3|R2,3=L2@2;!2|Dp=2X;D2:p|R1=L3@4;!3|R0=|O4096=4P4096|O4096=4P4096|S0=B0|O4096=|Df-1=4X;D3:f-1|S0=B
ca=W;?s.toml|I4=Ct0,t1,t2,t3|S2,0=B|S=B|R0,3,2=L0@2;!0|S1=B|Df-1=2X;D0:f-1;L3@4;!3|R1=|S1=B1|Df-1=4X;D3:f-1|R1=L2@6;!2|Df1=6X;D2:f1|S=B|S=B|M=L1@8;!1|S=B|l=|Df-1=8X;D1:f-1;X|Q=.
ca=W;?s.toml|I3=Ct0,t1,t2|R2,0,1=L2@2;!2|O100=2P100|S1=B1|Ds=2X;D2:s|S1,2=B|l=X
ca=W;?s.toml|R2,0,1=|S1,0=|A=|ia=|R0=|M=|R2,1=|S1,0=|I3=Ct0,t1,t2;L2@2;B;!2|O100=2P100|M=|M=|R0,2=|Dp=2X;D2:p;E:bad command
ca=W;?s.toml|R5,2,1=|R3=|R4=|I6=Ct0,t1,t2,t3,t4,t5;L5@2;!5|M=|O100=2P100|Df-1=2X;D5:f-1;L2@4;!2|S3,4=B3,4|Df-1=4X;D2:f-1;L1@6;!1|Df-1=6X;D1:f-1;F;X|Q=.
ca=W;?s.toml|R0=|M=|I1=Ct0;L0@2;!0|O4096=2P4096|O4096=2P4096|Dp=2X;D0:p;F;X
ca=W;?s.toml|I1=Ct0|R0=|S0=B|S=B|S=B|S=B|M=L0@2;!0|Ds=2X;D0:s;F;X
ca=W;?s.toml|S0=|I1=Ct0;B|R0=|M=L0@2;!0|S=B|O4096=2P4096|S=B|O1=2P1|Df1=2X;D0:f1;F;X
ca=W;?s.toml|I2=Ct0,t1|R0=|S1,0=B|R1=L0@2;!0|Df-1=2X;D0:f-1|S1=B|ia=E:bad command
ca=W;?s.toml|S2=|A=|I4=Ct0,t1,t2,t3;B;L0@2;!0|Ds=2X;D0:s;L1@4;!1|S3=B3|Dp=4X;D1:p|R3=L2@6;!2|O4096=6P4096|Ds=6X;D2:s|S=B|S=B|S=B|S2=B
ca=W;?s.toml|I4=Ct0,t1,t2,t3|R1,0=L1@2;!1|O4096=2P4096|Df-1=2X;D1:f-1|R2,3=L0@4;!0|l=|Df-1=4X;D0:f-1;X
ca=W;?s.toml|I2=Ct0,t1|R1,0=L1@2;!1|S=B|Dp=2X;D1:p|M=L0@4;!0|S=B|S=B|O1=4P1
ca=W;?s.toml|I6=Ct0,t1,t2,t3,t4,t5|R2,0,5,1,4=L2@2;!2|R3=|S3=B3|Df1=2X;D2:f1;L0@4;!0|R3=|Ds=4X;D0:s;L5@6;!5|M=|O100=6P100|S=B|Dp=6X;D5:p;L1@8;!1|O4095=8P4095|O4095=8P4095|Dp=8X;D1:p;L4@10;!4|O4096=10P4096|M=|S5=B|S=B|O4096=10P4096|S=B|O0=|S=B|S=B|O4096=
ca=W;?s.toml|S1=|I4=Ct0,t1,t2,t3;B|A=L0@2;!0|S2,3=B2,3|R3=|O4096=2P4096|M=|M=|M=|O4096=2P4096|Ds=2X;D0:s;L1@4;!1|M=|R2=|Df-1=4X;D1:f-1;L3@6;!3|Dp=6X;D3:p;F;X
ca=W;?s.toml|I2=Ct0,t1|R1=|S=B|R0=L1@2;!1|Ds=2X;D1:s|S1=B|S=B|S=B|S=B|M=L0@4;!0|l=|Dp=4X;D0:p;X|Q=.
ca=W;?s.toml|R5,1=|R=|I6=Ct0,t1,t2,t3,t4,t5;L5@2;!5|Ds=2X;D5:s|R2,4,3=L1@4;!1|R0=|O4096=4P4096|ia=|M=|S0,4=|O4096=4P4096|S0,3=|Ds=4X;D1:s;E:bad command
ca=W;?s.toml|R0=|I1=Ct0|S=B|S=B|S=B|M=L0@2;!0|O0=|Df1=2X;D0:f1;F;X
ca=W;?s.toml|R0=|I1=Ct0|S=B|S=B|S=B|S=B|S=B|M=L0@2;!0|S=B|M=|Ds=2X;D0:s;F;X
ca=W;?s.toml|I4=Ct0,t1,t2,t3|R3,2=L3@2;!3|R1=|O4096=2P4096|R0=|S0,1=B1,0|R=|O1=2P1|Df-1=2X;D3:f-1|Q=.
ca=W;?s.toml|I4=Ct0,t1,t2,t3|R2,0=L2@2;!2|R3=|Dp=2X;D2:p;L0@4;!0|Df1=4X;D0:f1|ia=E:bad command
ca=W;?s.toml|R0=|R1=|R0=|I2=Ct0,t1;L0@2;!0|O100=2P100|Dp=2X;D0:p;E:bad command
ca=W;?s.toml|I3=Ct0,t1,t2|R0,2=L0@2;!0|R1=|O4096=2P4096|S1=B1|R1=|Df1=2X;D0:f1;L2@4;!2
ca=W;?s.toml|R0=|M=|S0=|S0,0=|I1=Ct0;L0@2;B;!0|Dp=2X;D0:p;E:bad command|Q=.
ca=W;?s.toml|A=|A=|S=|I4=Ct0,t1,t2,t3;L0@2;!0|O100=2P100|S2=|Df-1=2X;D0:f-1;E:bad command
ca=W;?s.toml|I4=Ct0,t1,t2,t3|R1=|R2,0,3=L1@2;!1|O4096=2P4096|S0=B0|Df1=2X;D1:f1;L2@4;!2|Df-1=4X;D2:f-1|M=L3@6;!3|R0=|Q=
ca=W;?s.toml|I2=Ct0,t1|R1,0=L1@2;!1|M=|Dp=2X;D1:p;L0@4;!0|M=|ia=|M=|S0=|M=|M=|S1,0=|Df-1=4X;D0:f-1;E:bad command
ca=W;?s.toml|S0,1,2=|S1,2=|R3=|I4=Ct0,t1,t2,t3;B;B|R1,2,0=L3@2;!3|S2=B2|S0=B0|R2=|ia=|Df1=2X;D3:f1;E:bad command
ca=W;?s.toml|S1,2,3=|I4=Ct0,t1,t2,t3;B|S2=B|S0=B|S2,3,1=B|M=F;X
ca=W;?s.toml|S0=|I1=Ct0;B|R0=|S0=B|M=L0@2;!0|M=|O4095=2P4095|Df1=2X;D0:f1;F;X|Q=.
ca=W;?s.toml|R2,1,0=|I4=Ct0,t1,t2,t3;L2@2;!2|Ds=2X;D2:s;L1@4;!1|O100=4P100|S3=B|R3=|Dp=4X;D1:p;L0@6;!0|Ds=6X;D0:s|S=B|S=B|M=L3@8;!3|S=B|Df-1=8X;D3:f-1;F;X
ca=W;?s.toml|I4=Ct0,t1,t2,t3|R=|R3,0,2=L3@2;!3|O4095=2P4095|S2=B2|Ds=2X;D3:s|l=X|Q=.
ca=W;?s.toml|I2=Ct0,t1|R1=|R0=L1@2;!1|M=|Df1=2X;D1:f1;L0@4;!0|S1,0=B|Q=
ca=W;?s.toml|I2=Ct0,t1|R=|R1,0=L1@2;!1|S=B|Df-1=2X;D1:f-1|S=B|S=B|S=B|M=L0@4;!0|M=|Ds=4X;D0:s;F;X
ca=W;?s.toml|A=|R0,1=|I3=Ct0,t1,t2;L0@2;!0|M=|S=|O4096=2P4096|Df-1=2X;D0:f-1;E:bad command|Q=.
ca=W;?s.toml|R0=|I2=Ct0,t1|R1=L0@2;!0|Ds=2X;D0:s|M=L1@4;!1|S0=B|S=B|Ds=4X;D1:s;F;X
ca=W;?s.toml|I4=Ct0,t1,t2,t3|S2=B|R0,3,2=L0@2;!0|S=B|R1,0=|Dp=2X;D0:p;E:bad command
ca=W;?s.toml|R3,2=|R2,0=|ia=|M=|I4=Ct0,t1,t2,t3;L3@2;!3|S0,2=|R1=|R1=|Df-1=2X;D3:f-1;E:bad command
ca=W;?s.toml|R2=|S2,4=|R=|S5=|I6=Ct0,t1,t2,t3,t4,t5;B;B|R1,5,4=L2@2;!2|Dp=2X;D2:p;L1@4;!1|R3,0=|Ds=4X;D1:s;L5@6;!5|Ds=6X;D5:s;L4@8;!4|S=B|S0=B0|Df1=8X;D4:f1|R0=L3@10;!3|R1=|S=|Df1=10X;D3:f1;E:bad command
ca=W;?s.toml|S0=|S0=|I1=Ct0;B;B|R0=|M=L0@2;!0|S0=B|R1,0=|Dp=2X;D0:p;E:bad command
ca=W;?s.toml|A=|M=|S4,2=|S=|ia=|I6=Ct0,t1,t2,t3,t4,t5;L0@2;B2,4;B;!0|Df1=2X;D0:f1;E:bad command
ca=W;?s.toml|R1=|S0=|S1,0=|M=|S0=|A=|I2=Ct0,t1;B;B;L1@2;B;!1|S0=|ia=|R=|M=|O1=2P1|O4096=2P4096|Dp=2X;D1:p;E:bad command
ca=W;?s.toml|A=|I1=Ct0|S=B|M=L0@2;!0|O4096=2P4096|M=|O100=2P100|Dp=2X;D0:p;F;X
ca=W;?s.toml|R=|I1=Ct0|R0=|S=B|S=B|M=L0@2;!0|O4095=2P4095|S=B|Df-1=2X;D0:f-1;F;X
ca=W;?s.toml|I3=Ct0,t1,t2|R0,2=L0@2;!0|O4096=2P4096|O100=2P100|R1=|Df1=2X;D0:f1;L2@4;!2
ca=W;?s.toml|I1=Ct0|R0=|S0=B|S=B|M=L0@2;!0|R0=|O100=2P100|O4096=2P4096|M=|O4095=2P3996|M=|M=|S0=|Ds=2X;D0:s;E:bad command|Q=.
ca=W;?s.toml|I3=Ct0,t1,t2|R0,1=L0@2;!0|R2=|O4095=2P4095|S2=B2|O100=2P100|Df-1=2X;D0:f-1
ca=W;?s.toml|S0=|S=|I6=Ct0,t1,t2,t3,t4,t5;B;B|R3,4,1,5=L3@2;!3|R0,3=|Ds=2X;D3:s;E:bad command
ca=W;?s.toml|I3=Ct0,t1,t2|R0,1=L0@2;!0|O0=|R2=|Ds=2X;D0:s;L1@4;!1|O0=|O1=4P1|Df-1=4X;D1:f-1|Q=.
ca=W;?s.toml|R1,4=|M=|I6=Ct0,t1,t2,t3,t4,t5;L1@2;!1|R5,2=|Dp=2X;D1:p;L4@4;!4|S2=B2|R2,0,3=|O0=|Ds=4X;D4:s;F;X
ca=W;?s.toml|M=|S=|R5=|R4=|I6=Ct0,t1,t2,t3,t4,t5;F;X|Q=.
ca=W;?s.toml|R3,1,1=|S0,1=|M=|ia=|R=|I6=Ct0,t1,t2,t3,t4,t5;E:bad command|Q=.
ca=W;?s.toml|S=|R0=|R0,0=|S=|R0=|A=|I1=Ct0;B;E:bad command|Q=.
ca=W;?s.toml|M=|R=|R1,2,0=|R5,3=|M=|S1=|I6=Ct0,t1,t2,t3,t4,t5;F;X|Q=.
ca=W;?s.toml|I2=Ct0,t1|S1=B|S0,0,1=E:bad command|Q=.
ca=W;?s.toml|S0=|S0,0=|R0=|R=|I1=Ct0;B;E:bad command|Q=.
ca=W;?s.toml|R0=|A=|S0,1=|R0,0=|M=|R=|R=|I2=Ct0,t1;E:bad command|Q=.
ca=W;?s.toml|I0=C|S=B|A=|S=B|S=B|S=B|S=B|S=B
ca=W;?s.toml|M=|S1,2=|R0=|A=|I3=Ct0,t1,t2;F;X|Q=.
ca=W;?s.toml|R=|I0=C|S=B|S=B|M=F;X|Q=.
ca=W;?s.toml|M=|R1=|R1=|R1,0=|R0=|I2=Ct0,t1;F;X|Q=.
ca=W;?s.toml|S1=|M=|M=|S1=|I2=Ct0,t1;B;F;X|Q=.
ca=W;?s.toml|S0=|I1=Ct0;B|R0=|S=B|S=B|S=B
ca=W;?s.toml|S1,0=|S=|S0=|S1,0=|I2=Ct0,t1;B;B;B;B|S=B|l=X|Q=.
ca=W;?s.toml|S2,1=|I3=Ct0,t1,t2;B|S=B|R0,2,1=L0@2;!0|S=B|Df-1=2X;D0:f-1;L2@4;!2|O4096=4P4096|Q=
ca=W;?s.toml|S1,2=|I4=Ct0,t1,t2,t3;B|R1=|R3,2=L1@2;!1|O0=|O4096=2P4096|O0=|Ds=2X;D1:s;L3@4;!3|O1=4P1|Ds=4X;D3:s
ca=W;?s.toml|R2,0=|I6=Ct0,t1,t2,t3,t4,t5;L2@2;!2|Df1=2X;D2:f1|R5,4,1,3=L0@4;!0|Dp=4X;D0:p;L5@6;!5|Df-1=6X;D5:f-1;L4@8;!4|O4095=8P4095|M=|Q=
ca=W;?s.toml|R0=|I4=Ct0,t1,t2,t3|R1,2,3=L0@2;!0|Ds=2X;D0:s;L1@4;!1|Dp=4X;D1:p;L2@6;!2|S=B|S=B|M=|Df-1=6X;D2:f-1;L3@8;!3|S=B|S=B|M=|O4095=8P4095|Ds=8X;D3:s;F;X
ca=W;?s.toml|R1,3=|S3,5,4=|R=|S1=|S=|I6=Ct0,t1,t2,t3,t4,t5;L1@2;B;B;B;!1|Df-1=2X;D1:f-1|R2,0=L3@4;!3|Df-1=4X;D3:f-1;L2@6;!2|Df-1=6X;D2:f-1|M=L0@8;!0|O0=|R4,5=|Df1=8X;D0:f1;F;X|Q=.
ca=W;?s.toml|A=|R1=|M=|S4,1=|I6=Ct0,t1,t2,t3,t4,t5;L0@2;!0|S3,4=|Df1=2X;D0:f1;E:bad command|Q=.
ca=W;?s.toml|I2=Ct0,t1|R0,1=L0@2;!0|Df1=2X;D0:f1|S=B|S=B|S=B|S=B|S=B|S=B|M=L1@4;!1|O100=4P100
ca=W;?s.toml|S3=|I4=Ct0,t1,t2,t3;B|R3,2,0,1=L3@2;!3|O1=2P1|S0,1=B0,1|Ds=2X;D3:s|R0,1=L2@4;!2
ca=W;?s.toml|I2=Ct0,t1|R0=|R1=L0@2;!0|l=|O1=2P1|O4095=2P4095|Df1=2X;D0:f1;X
ca=W;?s.toml|I2=Ct0,t1|R1,0=L1@2;!1|Dp=2X;D1:p|S=B|S=B|S=B|S=B|S=B|S=B|l=X
ca=W;?s.toml|A=|S0,4=|I6=Ct0,t1,t2,t3,t4,t5;L0@2;B;!0|S0=B|Df-1=2X;D0:f-1;L1@4;!1|O4096=4P4096|S4=B4|O100=4P100|O4096=4P3996|Df1=4X;D1:f1;L2@6;!2|R4=|Df1=6X;D2:f1;L3@8;!3|S4=B4|Df-1=8X;D3:f-1|M=L5@10;!5|R4=|O4096=10P4096|S4=B4|R4=|Dp=10X;D5:p;F;X
ca=W;?s.toml|A=|S1=|I4=Ct0,t1,t2,t3;L0@2;B;!0|S=B|O4095=2P4095|Ds=2X;D0:s;L1@4;!1|Ds=4X;D1:s;L2@6;!2|Dp=6X;D2:p
ca=W;?s.toml|S1,0=|I2=Ct0,t1;B|R0,1=L0@2;!0|Df1=2X;D0:f1|M=L1@4;!1|Ds=4X;D1:s;F;X|Q=.
ca=W;?s.toml|I2=Ct0,t1|R1,0=L1@2;!1|S=B|O100=2P100|Df-1=2X;D1:f-1|R0=E:bad command
ca=W;?s.toml|A=|I4=Ct0,t1,t2,t3;L0@2;!0|Df-1=2X;D0:f-1;L1@4;!1|Ds=4X;D1:s;L2@6;!2|S=B|O100=6P100|S1,2=B|S=B
ca=W;?s.toml|S2,1=|I3=Ct0,t1,t2;B|R0=|R2,1=L0@2;!0|S=B|Ds=2X;D0:s;L2@4;!2|O4096=4P4096|S=B|O100=4P100|S=B|S=B|O100=4P100
ca=W;?s.toml|A=|I3=Ct0,t1,t2;L0@2;!0|S2=B2|O4095=2P4095|O1=2P1|Ds=2X;D0:s|R2=L1@4;!1|O4096=4P4096|O0=|O4095=4P4095|Df-1=4X;D1:f-1|S=B|l=X
ca=W;?s.toml|R1,2=|I3=Ct0,t1,t2;L1@2;!1|R0=|M=|S0=B0|R0,2=|S1,3,0=|S0,1=|Dp=2X;D1:p;E:bad command
ca=W;?s.toml|I4=Ct0,t1,t2,t3|R3,0,2,1=L3@2;!3|Df-1=2X;D3:f-1;L0@4;!0|Ds=4X;D0:s;L2@6;!2|M=|A=|l=|O4095=6P4095|Q=
ca=W;?s.toml|S=|S0=|S0=|I1=Ct0;B;B;B|R0=|S=B|S=B|S=B|M=L0@2;!0|O4096=2P4096|Dp=2X;D0:p;F;X
ca=W;?s.toml|I1=Ct0|R0=|M=L0@2;!0|S1,0=|M=|S=|Df-1=2X;D0:f-1;E:bad command|Q=.
ca=W;?s.toml|I4=Ct0,t1,t2,t3|R2=|R0=L2@2;!2|Dp=2X;D2:p|R1,3=L0@4;!0|M=|O4096=4P4096
ca=W;?s.toml|I6=Ct0,t1,t2,t3,t4,t5|R3,0,1,4,5,2=L3@2;!3|Df1=2X;D3:f1;L0@4;!0|Df-1=4X;D0:f-1;L1@6;!1|Df1=6X;D1:f1;L4@8;!4|Df-1=8X;D4:f-1;L5@10;!5|O100=10P100|Ds=10X;D5:s|A=E:bad command|Q=.
ca=W;?s.toml|R0=|R0=|S0=|M=|S=|ia=|S=|R0=|I1=Ct0;E:bad command|Q=.
ca=W;?s.toml|A=|I3=Ct0,t1,t2;L0@2;!0|O4095=2P4095|O4096=2P4096|S2=B2|R2=|Dp=2X;D0:p;L1@4;!1|R2,1=|Df-1=4X;D1:f-1;E:bad command
ca=W;?s.toml|S1=|R1=|I3=Ct0,t1,t2;B|R2=L1@2;!1|Dp=2X;D1:p|l=X
ca=W;?s.toml|R=|I3=Ct0,t1,t2|S=B|R2=|R1,0=L2@2;!2|O4096=2P4096|Df-1=2X;D2:f-1;L1@4;!1|M=|Df1=4X;D1:f1;L0@6;!0
ca=W;?s.toml|R=|I2=Ct0,t1|R0=|R1=L0@2;!0|M=|Df1=2X;D0:f1;L1@4;!1|S0=B|S=B|S0=B|S=B|M=|Dp=4X;D1:p;F;X
ca=W;?s.toml|S=|I1=Ct0;B|R0=|S=B|S0=B|S=B|R0,0,0=E:bad command
ca=W;?s.toml|R2=|I4=Ct0,t1,t2,t3|R3=L2@2;!2|O4096=2P4096|R1,0=|Df-1=2X;D2:f-1;L3@4;!3|S0=B0|R0=|S0=B0
ca=W;?s.toml|R3=|S5,4,3=|I6=Ct0,t1,t2,t3,t4,t5;B|R0,1,4,5,2=L3@2;!3|S=B|l=|O100=2P100|O4095=2P4095|Df-1=2X;D3:f-1;X
ca=W;?s.toml|A=|R=|I3=Ct0,t1,t2;L0@2;!0|M=|O1=2P1|l=|Ds=2X;D0:s;X
ca=W;?s.toml|I4=Ct0,t1,t2,t3|R3,0,2=L3@2;!3|S2=B2|O4096=2P4096|O4096=2P4096|Ds=2X;D3:s|R2,1=L0@4;!0|Df1=4X;D0:f1;L2@6;!2|Df1=6X;D2:f1|M=L1@8;!1|Df-1=8X;D1:f-1;F;X|Q=.
ca=W;?s.toml|A=|M=|I2=Ct0,t1;L0@2;!0|S=B|S=B|M=|Df1=2X;D0:f1;L1@4;!1|l=|O100=4P100|O4096=4P4096|O100=4P100|Ds=4X;D1:s;X
ca=W;?s.toml|I2=Ct0,t1|R=|R0,1=L0@2;!0|R0=|M=|S=|M=|Dp=2X;D0:p;E:bad command
ca=W;?s.toml|I4=Ct0,t1,t2,t3|R2=|R1,3,0=L2@2;!2|S3=B3|S0=B0|R0,3=|Df1=2X;D2:f1;L1@4;!1|S=B|Dp=4X;D1:p;L0@6;!0
ca=W;?s.toml|R0=|R=|I1=Ct0|S=B|S=B|S=B|S0=B|S=B|M=L0@2;!0|Dp=2X;D0:p;F;X|Q=.
ca=W;?s.toml|I3=Ct0,t1,t2|R0=|R2,1=L0@2;!0|O4096=2P4096|O4096=2P4096|Df-1=2X;D0:f-1;L2@4;!2|O100=4P100|Df1=4X;D2:f1|S2,0=B
ca=W;?s.toml|S=|I4=Ct0,t1,t2,t3;B|R1,3,0,2=L1@2;!1|S=B|Dp=2X;D1:p;L3@4;!3|Ds=4X;D3:s;L0@6;!0|S=B|S=B|O0=|S=B|S=B|M=|Df1=6X;D0:f1;L2@8;!2|S3,1,0=B|S=B|Dp=8X;D2:p;F;X
ca=W;?s.toml|I2=Ct0,t1|R0,1=L0@2;!0|O4096=2P4096|O4095=2P4095|O100=2P1|O1=|O0=|Dp=2X;D0:p|M=L1@4;!1|O4096=4P4096|Df3=4X;D1:f3;F;X
ca=W;?s.toml|I1=Ct0|A=|M=L0@2;!0|O4096=2P4096|O4096=2P4096|O1=|Ds=2X;D0:s;F;X
ca=W;?s.toml|I2=Ct0,t1|R0=|R1=L0@2;!0|O4000=2P4000|O4000=2P4000|O4000=2P192|O4000=|ia=|O10=|Df-1=2X;D0:f-1;E:bad command
ca=W;?s.toml|I5=Ct0,t1,t2,t3,t4|A=L0@2;!0|S3,4=B3,4|S4=B|R4,3=|S3=B3|S3,4=B|R3=|M=|Dp=2X;D0:p;L1@4;!1
ca=W;?s.toml|I5=Ct0,t1,t2,t3,t4|R0,1,2,3,4=L0@2;!0|S3,4=B3,4|S1,2=B
ca U=W;?s.toml;E:suite cannot be read|R0,1=|S1=|R2=|l=
ca=W;?s.toml|M=|I0=C;F;X
ca=W;?s.toml|M=|I3=Ct0,t1,t2;F;X|R0=
ca=W;?s.toml|R0,1=|M=|S1=|I2=Ct0,t1;L0@2;B;!0|Dp=2X;D0:p;L1@4;!1|Dp=4X;D1:p;F;X
ca=W;?s.toml|R0=|ia=|R1=|I2=Ct0,t1;E:bad command
ca=W;?s.toml|R0,1=|ia=|I2=Ct0,t1;L0@2;!0|R9=|Dp=2X;D0:p;E:bad command
ca=W;?s.toml|I3=Ct0,t1,t2|R0,1=L0@2;!0|l=|ia=|O5=2P5|Dp=2X;D0:p;X|M=
ca=W;?s.toml|I3=Ct0,t1,t2|R0,1=L0@2;!0|ia=|l=|O5=2P5|Dp=2X;D0:p;E:bad command|M=
ca=W;?s.toml|I3=Ct0,t1,t2|R0,1=L0@2;!0|M=|Dp=2X;D0:p;L1@4;!1|l=|Dp=4X;D1:p;X
ca=W;?s.toml|I3=Ct0,t1,t2|R0,1=L0@2;!0|Q=
ca=W;?s.toml|I3=Ct0,t1,t2|R0,0=E:bad command
ca=W;?s.toml|I3=Ct0,t1,t2|R3=E:bad command
ca=W;?s.toml|I3=Ct0,t1,t2|S3=E:bad command
ca=W;?s.toml|I3=Ct0,t1,t2|R0,1,2=L0@2;!0|S2,2=|Dp=2X;D0:p;E:bad command
ca=W;?s.toml|I3=Ct0,t1,t2|R0,1=L0@2;!0|R1=|Dp=2X;D0:p;E:bad command
"""

PAYLOADS = {
    "ca": b"N\0\0\0\0LN\0\0\0\x09run_testsJN\0\0\0\x05suiteN\0\0\0\x06s.tomlPN\0\0\0\x04distN\0\0\0\x04loadP@\0\0\0\x04Q",
    "cb": b"N\0\0\0\0LN\0\0\0\x09run_testsJN\0\0\0\x05suiteN\0\0\0\x01sP@\0\0\0\x04Q",
    "cc": b"N\0\0\0\0LN\0\0\0\x09run_testsF\0\0\0\x05@\0\0\0\x04Q",
    "cd": b"N\0\0\0\0LN\0\0\0\x04echoJ@\0\0\0\x04Q",
    "ce": b"N\0\0\0\0LN\0\0\0\x04failJN\0\0\0\x04textN\0\0\0\x01xP@\0\0\0\x04Q",
    "cf": b"N\0\0\0\0LN\0\0\0\x04failJ@\0\0\0\x04Q",
    "cg": b"N\0\0\0\0LN\0\0\0\x04nopeJ@\0\0\0\x04Q",
    "ch": b"N\0\0\0\0LN\0\0\0\x04nopeF\0\0\0\x05@\0\0\0\x04Q",
    "ci": b"N\0\0\0\x01xLN\0\0\0\x04echoJ@\0\0\0\x04Q",
    "cj": b"F\0\0\0\x05LN\0\0\0\x04echoJ@\0\0\0\x04Q",
    "ck": b"F\0\0\0\x07Q",
    "cl": b"N\0\0\0\0LN\0\0\0\x04echoJN\0\0\0\x01cB\0\0\0\x13P@\0\0\0\x04Q",
    "cm": b"N\0\0\0\0N\0\0\0\x01fN\0\0\0\x04echoJ@\0\0\0\x04Q",
    "cn": b"N\0\0\0\0LF\0\0\0\x05J@\0\0\0\x04Q",
    "co": b"N\0\0\0\0LN\0\0\0\x04echoF\0\0\0\x05@\0\0\0\x04Q",
    "cp": b"N\0\0\0\0LN\0\0\0\x09run_testsJN\0\0\0\x01xLPN\0\0\0\x04distN\0\0\0\x04loadPN\0\0\0\x05suiteN\0\0\0\x06s.tomlP@\0\0\0\x04Q",
    "cq": b"N\0\0\0\0LN\0\0\0\x04failJN\0\0\0\x04textF\0\0\0\x05P@\0\0\0\x04Q",
    "ia": b"F\0\0\0\x05Q",
    "ib": b"N\0\0\0\x01xQ",
    "ic": b"N\0\0\0\x08runtestsJ@\0\0\0\x02Q",
    "id": b"N\0\0\0\x05stealJN\0\0\0\x07indicesK\0\0\0\x01F\0\0\0\0F\xff\xff\xff\xffPP@\0\0\0\x02Q",
    "ie": b"N\0\0\0\x08shutdown@\0\0\0\x01Q",
    "if": b"N\0\0\0\x08runtestsJN\0\0\0\x07indicesK\0\0\0\x01F\0\0\0\0RPP@\0\0\0\x02Q",
    "ig": b"K\0\0\0\x02F\0\0\0\0B\0\0\0\x15PF\0\0\0\x01B\0\0\0\x17PQ",
    "ih": b"A\0\0\0\x01xQ",
    "iz": b"zQ",
    "cr": b"N\0\0\0\0LN\0\0\0\x09run_testsJN\0\0\0\x01xLPN\0\0\0\x04distN\0\0\0\x04eachPN\0\0\0\x05suiteN\0\0\0\x01sP@\0\0\0\x04Q",
    "cs": b"N\0\0\0\0LN\0\0\0\x09run_testsJN\0\0\0\x05suiteN\0\0\0\x01sPN\0\0\0\x04distN\0\0\0\x02noP@\0\0\0\x04Q",
    "ct": b"N\0\0\0\0LN\0\0\0\x09run_testsJN\0\0\0\x05suiteLPN\0\0\0\x04distN\0\0\0\x04loadP@\0\0\0\x04Q",
    "cu": b"N\0\0\0\0LN\0\0\0\x09run_testsJN\0\0\0\x04distN\0\0\0\x04loadP@\0\0\0\x04Q",
    "cv": b"N\0\0\0\0LN\0\0\0\x09run_testsJ@\0\0\0\x04Q",
    "cw": b"N\0\0\0\0LLJ@\0\0\0\x04Q",
    "cx": b"N\0\0\0\x01xLLL@\0\0\0\x04Q",
    "cy": b"LLN\0\0\0\x04echoJ@\0\0\0\x04Q",
    "cz": b"N\0\0\0\0LN\0\0\0\x04echo@\0\0\0\x03Q",
    "c1": b"LQ",
    "c2": b"N\0\0\0\0LN\0\0\0\x04echoL@\0\0\0\x04Q",
    "c3": b"N\0\0\0\0LN\0\0\0\x04nopeL@\0\0\0\x04Q",
    "c4": b"N\0\0\0\0LN\0\0\0\x04failJN\0\0\0\x04textLP@\0\0\0\x04Q",
    "c0": b"",
    "i0": b"N\0\0\0\x08runtestsJN\0\0\0\x01xLPN\0\0\0\x07indicesK\0\0\0\x02F\0\0\0\0F\0\0\0\0PF\0\0\0\x01F\0\0\0\x01PPN\0\0\0\x01yF\0\0\0\x01P@\0\0\0\x02Q",
    "i1": b"N\0\0\0\x0cruntests_allJN\0\0\0\x07indicesK\0\0\0\0P@\0\0\0\x02Q",
    "i2": b"N\0\0\0\x05stealJN\0\0\0\x07indicesK\0\0\0\0P@\0\0\0\x02Q",
    "i3": b"N\0\0\0\x08shutdownJ@\0\0\0\x02Q",
    "i4": b"N\0\0\0\x05stealJN\0\0\0\x07indicesK\0\0\0\x01F\0\0\0\0H\0\0\0\x0a4294967296PP@\0\0\0\x02Q",
    "i5": b"N\0\0\0\x05stealJN\0\0\0\x07indicesK\0\0\0\x02F\0\0\0\0F\0\0\0\x01PF\0\0\0\x01F\xff\xff\xff\xffPP@\0\0\0\x02Q",
    "i6": b"N\0\0\0\x05stealJN\0\0\0\x07indicesF\0\0\0\x01@\0\0\0\x01P@\0\0\0\x02Q",
    "i7": b"N\0\0\0\x05stealJN\0\0\0\x07indicesK\0\0\0\x01F\0\0\0\0RPP@\0\0\0\x02Q",
    "i8": b"N\0\0\0\x05stealJN\0\0\0\x05testsK\0\0\0\x01F\0\0\0\0F\0\0\0\x01PP@\0\0\0\x02Q",
    "i9": b"N\0\0\0\x08shutdownJF\0\0\0\x01F\0\0\0\x02P@\0\0\0\x02Q",
    "iA": b"N\0\0\0\x08shutdownL@\0\0\0\x02Q",
    "iB": b"K\0\0\0\x02F\0\0\0\0N\0\0\0\x08shutdownPF\0\0\0\x01JPQ",
    "iC": b"N\0\0\0\x08shutdownJJ@\0\0\0\x03Q",
    "iD": b"N\0\0\0\x08ShutdownJ@\0\0\0\x02Q",
    "iE": b"A\0\0\0\x08shutdownJ@\0\0\0\x02Q",
    "iF": b"N\0\0\0\x0bworkerreadyJ@\0\0\0\x02Q",
}

proc factex;
factors Suction XYFeed InFeed Foot Stack Depth Speed Bit1 Bit2 Spindle1 Spindle2;
size design=32;
model estimate=(Suction XYFeed InFeed Foot Stack Depth Speed
                Bit1|Bit2 Spindle1|Spindle2);
output out=Router randomize(11)
       [Bit1 Bit2]=Bit nvals=(1 2 3 4) [Spindle1 Spindle2]=Spindle nvals=(1 2 3 4)
       Suction nvals=(1 2) XYFeed nvals=(60 80) InFeed nvals=(10 50)
       Foot cvals=('SR' 'BB') Stack cvals=('3/16' '1/4') Depth nvals=(60 100)
       Speed nvals=(30000 40000);
run;

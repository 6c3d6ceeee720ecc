proc factex;
factors Quench;
size design=2;
model resolution=3;
output out=Noise Quench cvals=('130-150' '150-170');
proc factex;
factors Heat Time Transfer Hold;
size design=8;
model resolution=maximum;
output out=Springs pointrep=Noise designrep=3
       Heat nvals=(1840 1880) Time nvals=(23 25) Transfer nvals=(10 12) Hold nvals=(2 3);
run;

proc factex;
factors Temp Time Catalyst;
size design=4;
model resolution=3;
output out=Bench randomize(2026) novalran Temp nvals=(150 180) Time nvals=(30 60) Catalyst cvals=('low, 1%' 'high, 2%');
run;

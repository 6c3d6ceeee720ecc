proc factex;
factors Pressure Temp Speed Feed;
size design=8;
model resolution=4;
output out=Sheet randomize(7) novalran
    Pressure nvals=(2 3) Temp nvals=(150 180) Speed cvals=('slow' 'fast') Feed nvals=(10 12.5);
run;

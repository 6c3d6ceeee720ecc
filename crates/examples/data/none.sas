proc factex;
factors Pressure Temp Speed Feed Angle;
size design=8;
model resolution=4;
run;

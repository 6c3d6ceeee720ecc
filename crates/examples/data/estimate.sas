proc factex;
factors Pressure Temp Speed Feed Angle;
size design=8;
model estimate=(Pressure Temp Speed Feed Angle Pressure*Feed);
run;

proc factex;
factors Heat Time Transfer Hold Quench;
size design=minimum;
model estimate=(Heat Time Transfer Hold Quench Heat*Quench Time*Quench Transfer*Quench Hold*Quench);
run;

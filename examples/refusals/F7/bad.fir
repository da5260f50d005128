circuit Top :
  module Part :
    inst t of Top

  module Top :
    inst p of Part

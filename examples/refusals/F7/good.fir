circuit Top :
  module Part :
    skip

  module Top :
    inst p of Part

access(all) contract Toys {
  access(all) var count: Int

  access(all) resource Ball {
    access(all) let colour: String
    access(all) var bounces: Int

    init(_ colour: String) {
      self.colour = colour
      self.bounces = 0
    }

    access(all) fun bounce(): Int {
      self.bounces = self.bounces + 1
      return self.bounces
    }
  }

  access(all) resource Box {
    access(all) event ResourceDestroyed(colour: String? = self.ball?.colour)

    access(all) var ball: @Ball?

    init() {
      self.ball <- nil
    }

    access(all) fun put(_ ball: @Ball) {
      self.ball <-! ball
    }

    access(all) fun replace(_ ball: @Ball): @Ball? {
      let old <- self.ball <- ball
      return <-old
    }
  }

  access(all) fun ball(_ colour: String): @Ball {
    self.count = self.count + 1
    return <-create Ball(colour)
  }

  access(all) fun box(): @Box {
    return <-create Box()
  }

  init(count: Int) {
    self.count = count
  }
}
